local function sort(t, lo, hi)
  while lo < hi do
    local p, i, j = t[(lo + hi - (lo + hi) % 2) / 2], lo, hi
    while i <= j do
      while t[i] < p do i = i + 1 end
      while p < t[j] do j = j - 1 end
      if i <= j then t[i], t[j] = t[j], t[i] i = i + 1 j = j - 1 end
    end
    if j - lo < hi - i then sort(t, lo, j) lo = i else sort(t, i, hi) hi = j end
  end
end
local t, x = {}, 12345
for i = 1, 200000 do x = (x * 1103 + 12345) % 1000003 t[i] = x end
sort(t, 1, #t)
print(t[1], t[100000], t[200000])
