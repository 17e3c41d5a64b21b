-- Carries out a plan that was made of a snapshot, if that is right at this moment; otherwise changes nothing.
--
-- KEYS[1] is the key. ARGV, one word after another; a list is its length and then its items:
--   group, within (decimal)
--   last    `+`, or an id: what is pending for the dead above it is not compared
--   idle    for how many milliseconds an entry has to have been idle (decimal); any, if it is 0
--   most    how often an entry has been delivered at most (decimal); any number of times, if it is `-`
--   removed how many entries had been removed from the stream when it was looked up (decimal)
--   dead    for each its name, and a list of rows: an id, and `1` if the entry is in the stream, `0` if it is gone
--   live    for each its name, its limit, its soft limit or `-`, how many entries the plan gives it, how many of these
--           without a fee, the price of its first tier, that of its second (0 if it has none), and their ids
--
-- Compared: these rows are pending for the dead, as idle as asked for and delivered at most as often, and no others
-- (but those that have become as idle since then, if any time is asked for), and none of their entries is deleted: if
-- as many were removed as had been, none was since, and none is read. What was gone does not matter, since no plan
-- moves it; nor does what is pending before the first entry of the stream, which is gone. Each live consumer has room
-- for what it is given, and as many of its entries are without a fee. Then the plan is still an assignment at the total
-- that it had. No plan of this moment costs less than it by more than the gap, which is price times free places, summed
-- over all tiers; at a gap of 0 it is still cheapest.
--
-- Answers:  done, how many entries were claimed, the gap
--           stale, and then  group NAME    there is no such group, or no such key
--                            pending NAME  other entries are pending for this dead consumer
--                            entry ID      this entry is gone
--                            room NAME     this live consumer has too little room
--                            fee NAME      of what this live consumer is given, another number is without a fee
--                            gap NUMBER    the gap, which is above `within`, or 2^53 if it is that or more
--           an error of Redis, as it is: no permission, another kind of key, a replica. Nothing is changed then either
--
-- Numbers are doubles. Sums below 2^53 are exact, and a greater one never comes out below 2^53.

local MOST_ROWS = 1000 -- asked for, or claimed, in one call: `unpack` has a bound, and replies take memory
local EXACT = 2 ^ 53

local key = KEYS[1]
local place = 0

local function word()
  place = place + 1
  return ARGV[place]
end

local function number()
  return tonumber(word())
end

-- A list of what `read` reads.
local function list(read)
  local items = {}
  for at = 1, number() do
    items[at] = read()
  end
  return items
end

local function read_row()
  local id = word()
  return { id = id, is_there = word() == '1' }
end

local function read_dead()
  local name = word()
  return { name = name, rows = list(read_row) }
end

local function read_live()
  local one = { name = word() }
  one.limit = number()
  one.soft = number() -- nil if it is `-`
  one.load = number()
  one.free_load = number()
  one.first_price = number()
  one.next_price = number()
  one.ids = {}
  for at = 1, one.load do
    one.ids[at] = word()
  end
  return one
end

-- How many entries are pending for each consumer that has any, by name; or nil and the error.
local function pending_numbers(group)
  local summary = redis.pcall('XPENDING', key, group)
  if summary.err then
    return nil, summary
  end
  local numbers = {}
  for _, consumer in ipairs(summary[4] or {}) do
    numbers[consumer[1]] = tonumber(consumer[2])
  end
  return numbers
end

-- The number of the first row from this number on that is this entry or is in the stream: those before it are gone, and
-- may no longer be pending.
local function behind_gone(rows, at, id)
  while rows[at] and not rows[at].is_there and rows[at].id ~= id do
    at = at + 1
  end
  return at
end

-- Whether these rows are pending for the consumer from this id on, and no others. It asks for one more than these, if
-- none is left out. If entries have to be idle, others may have become so since then.
local function are_pending(group, start, last, claimable, dead)
  local rows, at = dead.rows, 1
  local is_any, most = claimable.idle == '0', claimable.most
  repeat
    local count = is_any and not most and math.min(MOST_ROWS, #rows + 2 - at) or MOST_ROWS
    local found = redis.call('XPENDING', key, group, 'IDLE', claimable.idle, start, last, count, dead.name)
    for _, pending in ipairs(found) do
      if not most or pending[4] <= most then
        at = behind_gone(rows, at, pending[1])
        if rows[at] and rows[at].id == pending[1] then
          at = at + 1
        elseif is_any then
          return false
        end
      end
      start = '(' .. pending[1]
    end
  until #found < count or not is_any and at > #rows
  return behind_gone(rows, at) > #rows
end

-- What is known of the stream: whether no entry was removed since this many had been, by those that were added less
-- those that are there; and the id of its first entry.
local function read_stream(removed)
  local stream, fields = redis.call('XINFO', 'STREAM', key), {}
  for at = 1, #stream, 2 do
    fields[stream[at]] = stream[at + 1]
  end
  local added, first = fields['entries-added'], fields['first-entry']
  return { is_whole = added < EXACT and added - fields['length'] == removed, first = first and first[1] or '-' }
end

-- What is not as it was with a dead consumer, as two words, or nil. What is pending before the first entry of the
-- stream is gone, and there may be much of it, so it is asked for only if the rest is not as it was: then for what has
-- changed.
local function change_of(group, last, claimable, stream, dead)
  local from_first = are_pending(group, stream.first, last, claimable, dead)
  if not from_first and not are_pending(group, '-', last, claimable, dead) then
    return 'pending', dead.name
  end
  for _, row in ipairs(stream.is_whole and {} or dead.rows) do
    if row.is_there and #redis.call('XRANGE', key, row.id, row.id) == 0 then
      return 'entry', row.id
    end
  end
end

-- What is in the way of giving a live consumer its entries, or nil; and what its free places are worth then. Neither
-- number of free places is below 0 here, since there is room and a soft limit is not above its limit.
local function judge(live, pending)
  local room = math.max(0, live.limit - pending)
  local free_room = live.soft and math.max(0, live.soft - pending) or room
  if live.load > 0 and pending + live.load > live.limit then
    return 'room'
  end
  if math.min(live.load, free_room) ~= live.free_load then
    return 'fee'
  end
  local first_left = free_room - live.free_load
  local next_left = (room - free_room) - (live.load - live.free_load)
  return nil, live.first_price * first_left + live.next_price * next_left
end

-- How many of the entries were claimed, whose delivery counts stay as they are (JUSTID).
local function carry_out(group, one)
  local claimed = 0
  for from = 1, #one.ids, MOST_ROWS do
    local to = math.min(from + MOST_ROWS - 1, #one.ids)
    local words = { 'XCLAIM', key, group, one.name, 0, unpack(one.ids, from, to) }
    table.insert(words, 'JUSTID')
    claimed = claimed + #redis.call(unpack(words))
  end
  return claimed
end

local function conclude()
  local group, within, last, idle, most, removed = word(), number(), word(), word(), number(), number()
  local claimable = { idle = idle, most = most } -- most is nil if it is `-`
  local dead, live = list(read_dead), list(read_live)
  local numbers, fault = pending_numbers(group)
  if fault then
    return fault.err:find('^NOGROUP') and { 'stale', 'group', group } or fault
  end
  local stream = read_stream(removed)
  for _, one in ipairs(dead) do
    local what, which = change_of(group, last, claimable, stream, one)
    if what then
      return { 'stale', what, which }
    end
  end
  local gap = 0
  for _, one in ipairs(live) do
    local what, worth = judge(one, numbers[one.name] or 0)
    if what then
      return { 'stale', what, one.name }
    end
    gap = gap + worth
  end
  if gap >= EXACT or gap > within then
    return { 'stale', 'gap', string.format('%.0f', math.min(gap, EXACT)) }
  end
  local claimed = 0
  for _, one in ipairs(live) do
    claimed = claimed + carry_out(group, one)
  end
  return { 'done', claimed, gap }
end

return conclude()
