# Shows a place of a source: its line as text that no terminal takes for more than text, and a caret below the place.
# It reads the bytes of the source in decimal (`od -An -v -tu1`), and wants LC_ALL=C. Its variables:
#   line, unit  the place; both count from 1, a unit is one of 16 bits, and a leading byte order mark is none
#   json        1 where LF alone ends a line
#   utf8        1 where the terminal takes UTF-8: where it does not, all but ASCII is shown as escapes
# Characters that are no text of their own (controls, those that turn the direction of a line, that join or have no width, the ends of
# lines) are shown as \u escapes, and bytes that are no UTF-8 as \x escapes. What is shown of a line has at most 200 columns.

function is_control(c) {
  return c < 32 || c >= 127 && c < 160 || c == 173 || c == 847 || c == 1564 || c >= 1536 && c <= 1541 || c == 1757 || c == 1807 || c == 2274 ||
    c >= 4447 && c <= 4448 || c >= 6068 && c <= 6069 || c >= 6155 && c <= 6159 || c >= 8203 && c <= 8207 || c >= 8232 && c <= 8238 ||
    c >= 8288 && c <= 8303 || c == 12644 || c >= 57344 && c <= 63743 || c >= 65024 && c <= 65039 || c == 65279 || c == 65440 ||
    c >= 65520 && c <= 65531 || c % 65536 >= 65534 || c >= 113824 && c <= 113827 || c >= 119155 && c <= 119162 || c >= 917504
}

# How many columns a character takes that is shown as it is.
function width(c) {
  if (c >= 768 && c <= 879 || c >= 1155 && c <= 1161 || c >= 1425 && c <= 1479 || c >= 1552 && c <= 1562 || c >= 1611 && c <= 1631 ||
    c >= 6832 && c <= 6911 || c >= 7616 && c <= 7679 || c >= 8400 && c <= 8447 || c >= 65056 && c <= 65071) return 0
  if (c >= 4352 && c <= 4447 || c >= 11904 && c <= 42191 || c >= 44032 && c <= 55203 || c >= 63744 && c <= 64255 || c >= 65072 && c <= 65135 ||
    c >= 65281 && c <= 65376 || c >= 65504 && c <= 65510 || c >= 127744 && c <= 128591 || c >= 129280 && c <= 129535 || c >= 131072) return 2
  return 1
}

function bytes_of(c) {
  if (c < 128) return sprintf("%c", c)
  if (c < 2048) return sprintf("%c%c", 192 + int(c / 64), 128 + c % 64)
  if (c < 65536) return sprintf("%c%c%c", 224 + int(c / 4096), 128 + int(c / 64) % 64, 128 + c % 64)
  return sprintf("%c%c%c%c", 240 + int(c / 262144), 128 + int(c / 4096) % 64, 128 + int(c / 64) % 64, 128 + c % 64)
}

# A character of the line that is asked for, or, negative, a byte that is no UTF-8. Those far from the place are passed over.
function add(c) {
  if (at_line == line && !passed) {
    if (at_unit >= unit + 250) passed = 1
    else if (at_unit >= unit - 250) {
      if (at_unit < unit) before = count + 1
      if (c < 0) { text[count] = sprintf("\\x%02x", -c); columns[count] = 4 }
      else if (is_control(c) || c > 126 && !utf8) {
        text[count] = c < 65536 ? sprintf("\\u%04x", c) : sprintf("\\u{%x}", c)
        columns[count] = length(text[count])
      } else { text[count] = bytes_of(c); columns[count] = width(c) }
      is_blank[count++] = c == 32 || c == 9
    } else cut = 1
  }
  at_unit += c < 65536 ? 1 : 2
}

function end_line() {
  at_line++
  at_unit = 1
}

function character(c) {
  if (c == 10 && after_cr) { after_cr = 0; return }
  after_cr = 0
  if (c == 65279 && is_first) { is_first = 0; return }
  is_first = 0
  if (c == 10 || !json && (c == 13 || c == 8232 || c == 8233)) { after_cr = c == 13; end_line() } else add(c)
}

# The bytes of a character that has not come to its end count each for itself.
function give_up(  i) {
  for (i = 1; i <= held; i++) { is_first = 0; after_cr = 0; add(-byte[i]) }
  held = 0
}

function byte_comes(b) {
  if (held) {
    if (b >= low && b <= high) {
      byte[++held] = b
      value = value * 64 + b % 64
      low = 128; high = 191
      if (held == wanted) { held = 0; character(value) }
      return
    }
    give_up()
  }
  low = 128; high = 191
  if (b < 128) { character(b); return }
  held = 1; byte[1] = b
  if (b >= 194 && b <= 223) { wanted = 2; value = b % 32 }
  else if (b >= 224 && b <= 239) { wanted = 3; value = b % 16; if (b == 224) low = 160; if (b == 237) high = 159 }
  else if (b >= 240 && b <= 244) { wanted = 4; value = b % 8; if (b == 240) low = 144; if (b == 244) high = 143 }
  else give_up()
}

BEGIN { at_line = at_unit = 1; count = before = held = 0; is_first = !json }

at_line <= line && !passed { for (i = 1; i <= NF; i++) byte_comes($i + 0) }

END {
  give_up()
  if (at_line < line) exit
  # The blanks that a line begins with go, and then what is too far to the left or to the right.
  first = 0
  if (!cut) while (first < before && is_blank[first]) first++
  for (i = first; i < count; i++) all += columns[i]
  last = count
  if (cut || passed || all > 200) {
    room = 97
    for (first = before; first > 0 && columns[first - 1] <= room; first--) room -= columns[first - 1]
    left = cut || first > 0 ? "..." : ""
    room = 97
    for (last = before; last < count && columns[last] <= room; last++) room -= columns[last]
    right = passed || last < count ? "..." : ""
  }
  shown = left
  at = length(left)
  for (i = first; i < last; i++) {
    shown = shown text[i]
    if (i < before) at += columns[i]
  }
  printf "%s%s\n%" (at + 1) "s\n", shown, right, "^"
}
