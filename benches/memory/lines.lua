for i = 1, 100000 do readline() end
