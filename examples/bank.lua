Account = {}
Account.__index = Account
function Account.new(name, start)
  local a = {name = name, balance = start}
  return setmetatable(a, Account)
end
function Account:deposit(...)
  for _, v in ipairs({...}) do
    if v <= 0 then error("bad amount: " .. v) end
    self.balance = self.balance + v
  end
  return self
end
local bank, undo = {}, {}
for i, n in ipairs({"ann", "bob"}) do
  bank[i] = Account.new(n, i * 100)
  undo[i] = function() bank[i].balance = 0 end
end
bank[1]:deposit(5, 10):deposit(20)
undo[2]()
local k = 0
repeat
  k = k + 1
  local b = bank[k]
  print(k, b.name, b.balance)
until b.name == "bob"
print(select("#", bank, undo), #bank)
