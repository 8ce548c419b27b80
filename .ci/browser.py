"""Drives a headless chromium by its debugging pipe: the standard library is enough."""
import base64
import json
import os
import shutil
import subprocess
import tempfile
import time

NAMES = ['chromium', 'chromium-browser', 'google-chrome', 'google-chrome-stable']


def find():
    return next((path for path in map(shutil.which, NAMES) if path), None)


class Browser:
    def __init__(self, path, width=1400, height=900):
        self.room = tempfile.mkdtemp()
        down, self.to = os.pipe()
        self.from_, up = os.pipe()

        def pipes():
            # (the browser reads 3 and writes 4)
            low, high = os.dup(down), os.dup(up)
            os.dup2(low, 3)
            os.dup2(high, 4)

        # (a process of its that has not reached the main one within 15 seconds ends itself, unless said: on a machine that is loaded the
        # page's process did, and the browser had none)
        with open(os.path.join(self.room, 'said'), 'wb') as said:
            self.process = subprocess.Popen(
                [path, '--headless=new', '--remote-debugging-pipe', '--no-sandbox', '--disable-gpu', '--no-first-run', '--disable-extensions',
                 '--disable-background-networking', '--disable-component-update', '--disable-sync', '--disable-default-apps', '--in-process-gpu',
                 '--no-zygote', '--ipc-connection-timeout=3600', '--disable-dev-shm-usage', '--enable-logging=stderr', f'--window-size={width},{height}',
                 f'--user-data-dir={self.room}', 'about:blank'],
                preexec_fn=pipes, close_fds=False, stdin=subprocess.DEVNULL, stdout=subprocess.DEVNULL, stderr=said)
        os.close(down)
        os.close(up)
        self.rest, self.count, self.events = b'', 0, []
        target = self.call('Target.createTarget', {'url': 'about:blank'})['targetId']
        self.session = self.call('Target.attachToTarget', {'targetId': target, 'flatten': True})['sessionId']
        for domain in ('Page', 'Runtime', 'Log', 'Network'):
            self.page(f'{domain}.enable')

    def call(self, method, params=None, session=None):
        self.count += 1
        message = {'id': self.count, 'method': method, 'params': params or {}}
        if session:
            message['sessionId'] = session
        content = json.dumps(message).encode('ascii') + b'\0'
        while content:
            content = content[os.write(self.to, content):]
        while True:
            answer = self.read()
            if answer.get('id') == self.count:
                if 'error' in answer:
                    raise RuntimeError(f'{method}: {answer["error"]}')
                return answer['result']
            self.events.append(answer)

    def read(self):
        while b'\0' not in self.rest:
            part = os.read(self.from_, 1 << 20)
            if not part:
                raise RuntimeError(f'the browser ended; {self.last_said()}')
            self.rest += part
        message, _, self.rest = self.rest.partition(b'\0')
        message = json.loads(message)
        if message.get('method') == 'Inspector.targetCrashed' or message.get('params', {}).get('reason') == 'Render process gone.':
            raise RuntimeError(f'the process of the page ended; {self.last_said()}')
        return message

    def last_said(self):
        with open(os.path.join(self.room, 'said'), encoding='utf-8', errors='replace') as said:
            return 'it said last: ' + ' | '.join(said.read().splitlines()[-4:])

    def page(self, method, params=None):
        return self.call(method, params, self.session)

    def value(self, expression):
        """What an expression comes to in the page."""
        result = self.page('Runtime.evaluate', {'expression': expression, 'returnByValue': True, 'awaitPromise': True})
        if 'exceptionDetails' in result:
            raise RuntimeError(f'{expression}: {result["exceptionDetails"].get("exception", {}).get("description")}')
        return result['result'].get('value')

    def open(self, path, fragment='', seconds=60):
        """Opens a file, and waits until its page says that it is drawn. Gives the milliseconds that it says it took."""
        self.events.clear()
        self.page('Page.navigate', {'url': 'about:blank'})
        self.page('Page.navigate', {'url': f'file://{os.path.abspath(path)}{fragment}'})
        end = time.monotonic() + seconds
        while time.monotonic() < end:
            try:
                # (a document that has just come has no root yet, and one that is on its way takes what is asked with it)
                ready = self.value('document.documentElement?.dataset.ready')
            except RuntimeError as error:
                if 'navigated' not in str(error) and 'context' not in str(error):
                    raise
                ready = None
            if ready:
                return int(ready)
            time.sleep(0.05)
        raise RuntimeError(f'{path} was not drawn: {self.value("document.body?.textContent.slice(0, 200)")!r} {self.faults()}')

    def key(self, key, text=None):
        code = {'Enter': 13, 'Escape': 27, 'ArrowDown': 40, 'ArrowUp': 38, 'ArrowLeft': 37, 'ArrowRight': 39, 'End': 35, 'Home': 36}.get(key, 0)
        params = {'key': key, 'windowsVirtualKeyCode': code}
        if len(key) == 1:
            params['text'] = key
        elif key == 'Enter':
            params['text'] = '\r'
        self.page('Input.dispatchKeyEvent', {'type': 'keyDown', **params})
        self.page('Input.dispatchKeyEvent', {'type': 'keyUp', **params})

    def write(self, text):
        self.page('Input.insertText', {'text': text})

    def shot(self, path, dark=False):
        self.page('Emulation.setEmulatedMedia', {'features': [{'name': 'prefers-color-scheme', 'value': 'dark' if dark else 'light'}]})
        content = self.page('Page.captureScreenshot', {'format': 'png'})['data']
        with open(path, 'wb') as file:
            file.write(base64.b64decode(content))

    def faults(self):
        """What the page threw or was refused, and what it asked of the network."""
        said = []
        for event in self.events:
            method, params = event.get('method'), event.get('params', {})
            if method == 'Runtime.exceptionThrown':
                said.append(params['exceptionDetails'].get('exception', {}).get('description', params['exceptionDetails']['text']))
            elif method == 'Log.entryAdded' and params['entry']['level'] == 'error':
                said.append(params['entry']['text'])
            elif method == 'Network.requestWillBeSent' and not params['request']['url'].startswith(('file:', 'about:')):
                said.append('asked for ' + params['request']['url'][:80])
        return said

    def close(self):
        try:
            self.call('Browser.close')
        except (RuntimeError, OSError):
            pass
        try:
            self.process.wait(10)
        except subprocess.TimeoutExpired:
            self.process.kill()
            self.process.wait()
        os.close(self.to)
        os.close(self.from_)
        shutil.rmtree(self.room, ignore_errors=True)
