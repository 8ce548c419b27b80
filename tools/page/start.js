// Unpacks the data, and starts the page that it is for. What was measured stands on the root element, for a test.
(async () => {
  try {
    const data = await unpackData(), { dataset } = document.documentElement;
    const frame = () => new Promise(done => { requestAnimationFrame(() => requestAnimationFrame(() => done(String(Math.round(performance.now()))))); });
    const page = data.kind === 'trace' ? new TracePage(data) : new PolicyPage(data);
    globalThis.lavaPage = page;
    page.start();
    dataset.drawn = await frame();
    await page.read;
    dataset.ready = await frame();
  } catch (error) {
    document.getElementById('page').replaceChildren(el('p', { class: 'wait' }, `The page could not be drawn: ${error.message}`));
    throw error;
  }
})();
