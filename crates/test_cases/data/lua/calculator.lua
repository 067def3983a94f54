-- A calculator: a scanner, a parser by descent, and an evaluator.

local function scan(text)
  local place, tokens = 1, {}
  while place <= #text do
    local from, to = text:find("^%s+", place)
    if from then
      place = to + 1
    else
      local number
      from, to, number = text:find("^(%d+%.?%d*)", place)
      if from then
        tokens[#tokens + 1] = { kind = "number", value = tonumber(number) }
        place = to + 1
      else
        tokens[#tokens + 1] = { kind = text:sub(place, place) }
        place = place + 1
      end
    end
  end
  tokens[#tokens + 1] = { kind = "end" }
  return tokens
end

local Parser = {}
Parser.__index = Parser

function Parser.of(text)
  return setmetatable({ tokens = scan(text), place = 1 }, Parser)
end

function Parser:kind()
  return self.tokens[self.place].kind
end

function Parser:take(kind)
  local token = self.tokens[self.place]
  if token.kind ~= kind then
    error('expected ' .. kind .. ", found '" .. token.kind .. "'", 0)
  end
  self.place = self.place + 1
  return token
end

local binding = {
  ["+"] = 10, ["-"] = 10,
  ["*"] = 20, ["/"] = 20,
  ["^"] = 30,
}

local apply = {
  ["+"] = function(a, b) return a + b end,
  ["-"] = function(a, b) return a - b end,
  ["*"] = function(a, b) return a * b end,
  ["/"] = function(a, b)
    if b == 0 then error("division by zero", 0) end
    return a / b
  end,
  ["^"] = function(a, b) return a ^ b end,
}

function Parser:primary()
  if self:kind() == "(" then
    self:take "("
    local value = self:expression(0)
    self:take ")"
    return value
  elseif self:kind() == "-" then
    self:take("-")
    return -self:expression(25)
  else
    return self:take("number").value
  end
end

function Parser:expression(least)
  local value = self:primary()
  while true do
    local operator = self:kind()
    local bound = binding[operator]
    if not bound or bound < least then break end
    self:take(operator)
    -- '^' goes to the right, all others to the left
    local right = self:expression(operator == "^" and bound or bound + 1)
    value = apply[operator](value, right)
  end
  return value
end

local function evaluate(text)
  local parser = Parser.of(text)
  local value = parser:expression(0)
  parser:take("end")
  return value
end

local cases = {
  { "1 + 2 * 3", 7 },
  { "(1 + 2) * 3", 9 },
  { "2 ^ 3 ^ 2", 512 },
  { "-2 ^ 2", -4 },
  { "8 / 4 / 2", 1 },
  { "1.5 * 4", 6 },
}

for number, case in ipairs(cases) do
  local value = evaluate(case[1])
  assert(value == case[2], case[1] .. " gave " .. tostring(value))
end

local ok, message = pcall(evaluate, "1 / 0")
print(ok, message);
(print or io.write)([[all of them
as expected]], -1e-3, .5, 3., 0XfF, '\'', "\"\\", '\
')

goto_ = nil
do local a, b, c = 1, 2; a, b = b, a; c = a <= b and a ~= b or not (a >= b) end
for i = 10, 1, -1 do if i % 2 == 0 then print(i) elseif i > 5 then print(-i) else print(#"odd") end end
function cases.last() return end
