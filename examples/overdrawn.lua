-- An account that cannot be overdrawn.
local Account = {}
Account.__index = Account

function Account:take(amount)
  if amount > self.balance then error("not enough") end
  self.balance = self.balance - amount
  return self
end

local account = setmetatable({name = "ann", balance = 135}, Account)
account:take(100)
print(account.name, account.balance)
account:take(100)
