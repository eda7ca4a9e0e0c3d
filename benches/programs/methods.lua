local Point = {} Point.__index = Point
function Point.new(x, y) return setmetatable({x = x, y = y}, Point) end
function Point:add(dx, dy) self.x = self.x + dx self.y = self.y + dy return self end
local p = Point.new(0, 0)
for i = 1, 3000000 do p:add(1, 2) end
print(p.x, p.y)
