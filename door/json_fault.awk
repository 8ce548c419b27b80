# Prints the line, and the place in it in units of 16 bits, of the first byte with which a text is no JSON any more, and nothing where it is JSON.
# It reads the bytes of the text in decimal (`od -An -v -tu1`). LF ends a line. A text may have 127 levels of arrays and objects.

function fault() {
  print line, unit
  found = 1
  exit
}

# A value has ended.
function ended() {
  state = depth ? "next" : "end"
}

function open(kind) {
  if (++depth > 127) fault()
  kinds[depth] = kind
  state = kind == "{" ? "first key" : "first item"
}

function close_(kind) {
  if (!depth || kinds[depth] != kind) fault()
  depth--
  ended()
}

function begin_value(b) {
  if (b == 34) { state = "text"; is_key = 0 }
  else if (b == 123) open("{")
  else if (b == 91) open("[")
  else if (b == 45) state = "minus"
  else if (b == 48) state = "zero"
  else if (b >= 49 && b <= 57) state = "digits"
  else if (b == 116) { rest = "rue"; state = "word" }
  else if (b == 102) { rest = "alse"; state = "word" }
  else if (b == 110) { rest = "ull"; state = "word" }
  else fault()
}

function is_digit(b) { return b >= 48 && b <= 57 }

# Goes on with a number. What can't be of it stands behind it.
function in_number(b) {
  if (state == "minus") { if (b == 48) state = "zero"; else if (is_digit(b)) state = "digits"; else fault(); return 1 }
  if (state == "point" || state == "sign") { if (!is_digit(b)) fault(); state = state == "point" ? "fraction" : "exponent"; return 1 }
  if (state == "e") { if (b == 43 || b == 45) state = "sign"; else if (is_digit(b)) state = "exponent"; else fault(); return 1 }
  if (is_digit(b)) { if (state == "zero") fault(); return 1 }
  if (b == 46 && (state == "zero" || state == "digits")) { state = "point"; return 1 }
  if ((b == 101 || b == 69) && state != "exponent") { state = "e"; return 1 }
  ended()
  return 0
}

function in_text(b,  d) {
  if (more) {
    # (a character of several bytes)
    if (b < low || b > high) fault()
    low = 128; high = 191; more--
  } else if (state == "text") {
    if (half && b != 92) fault()
    if (b == 34) { if (is_key) state = "colon"; else ended() }
    else if (b == 92) state = "escape"
    else if (b < 32) fault()
    else if (b >= 128) {
      low = 128; high = 191
      if (b >= 194 && b <= 223) more = 1
      else if (b >= 224 && b <= 239) { more = 2; if (b == 224) low = 160; if (b == 237) high = 159 }
      else if (b >= 240 && b <= 244) { more = 3; if (b == 240) low = 144; if (b == 244) high = 143 }
      else fault()
    }
  } else if (state == "escape") {
    if (half && b != 117) fault()
    if (b == 117) { state = "hex"; digits = 0; value = 0 }
    else if (index("\"\\/bfnrt", sprintf("%c", b))) state = "text"
    else fault()
  } else {
    d = is_digit(b) ? b - 48 : b >= 97 && b <= 102 ? b - 87 : b >= 65 && b <= 70 ? b - 55 : -1
    if (d < 0) fault()
    value = value * 16 + d
    if (++digits == 4) {
      if (half != (value >= 56320 && value <= 57343)) fault()
      half = value >= 55296 && value <= 56319
      state = "text"
    }
  }
}

function byte_comes(b) {
  if (state == "text" || state == "escape" || state == "hex") { in_text(b); return }
  if (state == "word") {
    if (sprintf("%c", b) != substr(rest, 1, 1)) fault()
    rest = substr(rest, 2)
    if (rest == "") ended()
    return
  }
  if (state ~ /^(minus|zero|digits|point|fraction|e|sign|exponent)$/ && in_number(b)) return
  if (b == 32 || b == 9 || b == 10 || b == 13) return
  if (state == "value") begin_value(b)
  else if (state == "first item") { if (b == 93) close_("["); else begin_value(b) }
  else if (state == "first key" || state == "key") {
    if (b == 34) { state = "text"; is_key = 1 }
    else if (b == 125 && state == "first key") close_("{")
    else fault()
  }
  else if (state == "colon") { if (b != 58) fault(); state = "value" }
  else if (state == "next") {
    if (b == 44) state = kinds[depth] == "{" ? "key" : "value"
    else if (b == 93) close_("[")
    else if (b == 125) close_("{")
    else fault()
  }
  else fault()
}

BEGIN { line = 1; unit = 1; state = "value"; half = 0 }

{
  for (i = 1; i <= NF; i++) {
    b = $i + 0
    byte_comes(b)
    if (b == 10) { line++; unit = 1 }
    else if (b < 128 || b >= 192) unit += b >= 240 ? 2 : 1
  }
}

END {
  if (!found && state !~ /^(end|zero|digits|fraction|exponent)$/ || !found && depth) { print line, unit }
}
