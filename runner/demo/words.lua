-- A small program for Lua: makes words, counts and sorts them, and prints floating point and formatted lines.
local seed = 7
local function next_number(below)
  seed = (seed * 16807) % 2147483647
  return seed % below
end
local counts, words = {}, {}
for _ = 1, 4000 do
  local letters = {}
  for i = 1, 2 + next_number(3) do letters[i] = string.char(97 + next_number(5)) end
  local word = table.concat(letters)
  if not counts[word] then words[#words + 1] = word end
  counts[word] = (counts[word] or 0) + 1
end
table.sort(words, function(a, b) return counts[a] > counts[b] or (counts[a] == counts[b] and a < b) end)
local total = 0.0
for rank, word in ipairs(words) do
  total = total + counts[word] / rank
  if rank <= 200 then print(string.format("%4d %-6s %5d %12.6f", rank, word, counts[word], total)) end
end
