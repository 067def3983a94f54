-- Queues, by two indexes into a table.
local Queue = {}
Queue.__index = Queue

function Queue.new(...)
  local self = setmetatable({ first = 1, last = 0, items = {} }, Queue)
  for _, item in ipairs({ ... }) do
    self:push(item)
  end
  return self
end

function Queue:push(item)
  self.last = self.last + 1
  self.items[self.last] = item
  return self
end

function Queue:pop()
  if self.first > self.last then
    return nil, "empty"
  end
  local item = self.items[self.first]
  self.items[self.first] = nil
  self.first = self.first + 1
  return item
end

function Queue:len()
  return self.last - self.first + 1
end

-- The items from the front, without taking them off.
function Queue:each()
  local place = self.first - 1
  return function()
    place = place + 1
    if place <= self.last then
      return self.items[place]
    end
  end
end

local queue = Queue.new("a", "b", "c")
queue:push("d"):push("e")
while queue:len() > 0 do
  print(queue:pop())
end

--[[ What is left:
     nothing, as the loop
     takes all of it. ]]
assert(queue:pop() == nil and queue:len() == 0)

return Queue
