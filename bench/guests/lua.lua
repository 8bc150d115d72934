-- A sieve, a sort, texts that are put together and searched, tables with methods, and coroutines.
local function primes(below)
    local composite, found = {}, {}
    for n = 2, below do
        if not composite[n] then
            found[#found + 1] = n
            for m = n * n, below, n do
                composite[m] = true
            end
        end
    end
    return found
end

local function numbers(count)
    local list, seed = {}, 12345
    for i = 1, count do
        seed = (seed * 1103515245 + 12345) % 2147483648
        list[i] = seed
    end
    return list
end

local found = primes(2000)
print("primes", #found, found[#found])

local list = numbers(500)
table.sort(list, function(a, b) return a > b end)
print("numbers", list[1], list[#list])

local pieces = {}
for i = 1, 300 do
    pieces[i] = string.format("%d:%x", i, i * i)
end
local text = table.concat(pieces, " ")
local count = 0
for _ in text:gmatch("%d+:%x+") do
    count = count + 1
end
print("text", #text, count, (text:gsub("1", "one")):len())

local Account = {}
Account.__index = Account
function Account.new() return setmetatable({ balance = 0 }, Account) end
function Account:pay(amount) self.balance = self.balance + amount end
local account = Account.new()
for i = 1, 1000 do
    account:pay(i % 7 * 0.5)
end
print("balance", account.balance)

local function walk(tree)
    if tree then
        walk(tree.left)
        coroutine.yield(tree.key)
        walk(tree.right)
    end
end
local root
for i = 1, #list do
    local key = list[i * 7 % #list + 1]
    local place = { key = key }
    if not root then
        root = place
    else
        local node = root
        while true do
            local side = key < node.key and "left" or "right"
            if not node[side] then
                node[side] = place
                break
            end
            node = node[side]
        end
    end
end
local sum = 0
for key in coroutine.wrap(function() walk(root) end) do
    sum = (sum * 31 + key) % 1000000007
end
print("walk", sum)
