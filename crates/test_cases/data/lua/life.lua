-- Conway's game of life on a torus.
local width, height = 24, 12

local function grid(value)
  local rows = {}
  for y = 1, height do
    rows[y] = {}
    for x = 1, width do
      rows[y][x] = value
    end
  end
  return rows
end

-- Whether the cell lives; places wrap around.
local function alive(cells, x, y)
  return cells[(y - 1) % height + 1][(x - 1) % width + 1]
end

local function neighbours(cells, x, y)
  local count = 0
  for dy = -1, 1 do
    for dx = -1, 1 do
      if not (dx == 0 and dy == 0) and alive(cells, x + dx, y + dy) then
        count = count + 1
      end
    end
  end
  return count
end

local function step(cells)
  local next_cells = grid(false)
  for y = 1, height do
    for x = 1, width do
      local count = neighbours(cells, x, y)
      next_cells[y][x] = count == 3 or count == 2 and alive(cells, x, y)
    end
  end
  return next_cells
end

local function show(cells)
  for y = 1, height do
    local line = ""
    for x = 1, width do
      line = line .. (cells[y][x] and "#" or ".")
    end
    print(line)
  end
end

local shapes = {
  glider = { { 2, 1 }, { 3, 2 }, { 1, 3 }, { 2, 3 }, { 3, 3 } };
  blinker = { { 10, 5 }, { 11, 5 }, { 12, 5 } };
  ["toad"] = { { 17, 7 }, { 18, 7 }, { 19, 7 }, { 16, 8 }, { 17, 8 }, { 18, 8 }, },
}

local cells = grid(false)
for name, shape in pairs(shapes) do
  for _, cell in ipairs(shape) do
    cells[cell[2]][cell[1]] = true
  end
end

local generation = 0
repeat
  print("generation " .. generation)
  show(cells)
  cells = step(cells)
  generation = generation + 1
until generation == 0x10
