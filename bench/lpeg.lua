-- JSON by LPeg, for bench/matching: lpeg.lua FORM TEXT. FORM is `tokens`, a flat table of the rule, the start and the end
-- of each tree of examples/json.pest, or `recognizer`. Prints how many trees there are, or that the text is JSON.
local lpeg = require "lpeg"
local P, R, S, V, Cc, Cp, Ct = lpeg.P, lpeg.R, lpeg.S, lpeg.V, lpeg.Cc, lpeg.Cp, lpeg.Ct
lpeg.setmaxstack(100000)

local form, file = arg[1], arg[2]

local function tree(name, body)
  if form == "recognizer" then return body end
  return Cc(name) * Cp() * body * Cp()
end

local blanks = S(" \t\r\n") ^ 0

local function list(first, part, last)
  return P(first) * blanks * (part * blanks * (P(",") * blanks * part * blanks) ^ 0) ^ -1 * P(last)
end

local digits = R("09") ^ 1
local json = P {
  "json",
  json = tree("json", blanks * V("value") * blanks * tree("EOI", -P(1))),
  value = tree("value", V("string") + V("number") + V("object") + V("array") + V("bool") + V("null")),
  object = tree("object", list("{", V("pair"), "}")),
  pair = tree("pair", V("string") * blanks * P(":") * blanks * V("value")),
  array = tree("array", list("[", V("value"), "]")),
  string = tree("string", P('"') * V("inner") * P('"')),
  inner = (P(1) - S('"\\')) ^ 0 * (V("escape") * V("inner")) ^ -1,
  escape = P("\\") * (S('btnfr"\\/') + V("unicode")),
  unicode = P("u") * R("09", "af", "AF") * R("09", "af", "AF") * R("09", "af", "AF") * R("09", "af", "AF"),
  number = tree("number", P("-") ^ -1 * V("int") * (P(".") * digits * V("exp") ^ -1 + V("exp")) ^ -1),
  int = P("0") + R("19") * R("09") ^ 0,
  exp = S("Ee") * S("+-") ^ -1 * digits,
  bool = tree("bool", P("true") + P("false")),
  null = tree("null", P("null")),
}
if form == "tokens" then json = Ct(json) end

local opened = assert(io.open(file, "rb"))
local text = opened:read("*a")
opened:close()
local found = assert(json:match(text), "no match")
print(form == "tokens" and (#found / 3) .. " trees" or "matches")
