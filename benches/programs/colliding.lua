-- Texts that an unseeded hash of their last eight bytes would all take for the same.
local tail = "\021|J\127\185y7\158"
for i = 1, 100000 do local text = i .. tail end
print("done")
