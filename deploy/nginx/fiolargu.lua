-- The C library for LuaJIT: plans, and streams that are fed in pieces cut anywhere.
--
--   local fiolargu = require "fiolargu"
--   local plan = assert(fiolargu.plan_of_lines("cat\ndog\n", {ignore_case = true}))
--   local stream = assert(plan:stream())
--   stream:feed("a con", count_hits); stream:feed("cat", count_hits)
--
-- Calls give nil and a message where the library refuses. Handles belong to one thread, as a worker of nginx is, and are closed
-- by `close` alone: LuaJIT may unload a library before it calls finalizers.
local ffi = require "ffi"

ffi.cdef [[
typedef struct { void *at; } fiolargu_plan;
typedef struct { void *at; } fiolargu_stream;
typedef struct { uint64_t end; uint32_t literal; uint32_t length; } fiolargu_hit;
typedef struct { uint64_t literals; uint64_t longest; uint64_t cost; uint32_t flags; uint32_t runs; } fiolargu_info;
int32_t fiolargu_plan_of_lines(fiolargu_plan *, const uint8_t *, size_t, uint32_t, size_t *);
int32_t fiolargu_plan_info(fiolargu_plan *, fiolargu_info *);
int32_t fiolargu_plan_literal(fiolargu_plan *, size_t, uint8_t *, size_t, size_t *);
void fiolargu_plan_free(fiolargu_plan *);
int32_t fiolargu_stream_open(fiolargu_plan *, fiolargu_stream *, uint64_t);
int32_t fiolargu_stream_feed(fiolargu_stream *, const uint8_t *, size_t, size_t *, fiolargu_hit *, size_t, size_t *);
int32_t fiolargu_stream_reset(fiolargu_stream *, uint64_t);
void fiolargu_stream_close(fiolargu_stream *);
]]

local IGNORE_CASE, ROOM = 1, 1024
local MESSAGES = {
  [1] = "memory ran out", [2] = "more than 4,096 patterns", [3] = "a pattern of more than 4,095 bytes", [5] = "no literals",
  [7] = "too many pattern bytes", [20] = "the stream is too long", [21] = "null handle",
}
local bytes, number = ffi.typeof "const uint8_t *", ffi.typeof "size_t[1]"

local _M = {}
local Plan, Stream = {}, {}
Plan.__index, Stream.__index = Plan, Stream

local function refused(status)
  return nil, MESSAGES[status] or "status " .. status
end

-- A plan of the lines of a text. `options` may have `ignore_case`, and `library`, the library's file.
function _M.plan_of_lines(text, options)
  options = options or {}
  local is_loaded, library = pcall(ffi.load, options.library or "libfiolargu.so.0")
  if not is_loaded then
    return nil, library
  end
  local handle = ffi.new "fiolargu_plan[1]"
  local flags = options.ignore_case and IGNORE_CASE or 0
  local status = library.fiolargu_plan_of_lines(handle, ffi.cast(bytes, text), #text, flags, number())
  if status ~= 0 then
    return refused(status)
  end
  local info = ffi.new "fiolargu_info[1]"
  library.fiolargu_plan_info(handle, info)
  local room = tonumber(info[0].literals) + 1 + ROOM
  return setmetatable({
    library = library, handle = handle, longest = tonumber(info[0].longest), room = room,
    -- All streams of a plan write here, one call at a time.
    hits = ffi.new("fiolargu_hit[?]", room), fed = number(), count = number(),
  }, Plan)
end

-- The bytes of a literal.
function Plan:literal(which)
  local text, length = ffi.new("uint8_t[?]", self.longest), number()
  local status = self.library.fiolargu_plan_literal(self.handle, which, text, self.longest, length)
  if status ~= 0 then
    return refused(status)
  end
  return ffi.string(text, length[0])
end

-- Frees the plan. Its streams go on.
function Plan:close()
  self.library.fiolargu_plan_free(self.handle)
end

-- A stream whose positions count from 0.
function Plan:stream()
  local handle = ffi.new "fiolargu_stream[1]"
  local status = self.library.fiolargu_stream_open(self.handle, handle, 0)
  if status ~= 0 then
    return refused(status)
  end
  return setmetatable({plan = self, handle = handle}, Stream)
end

-- Takes the next bytes, and calls `each(hits, count)` with the hits that end in them, some at a time: a C array whose entries
-- have `end`, `literal` and `length`. Gives true.
function Stream:feed(piece, each)
  local plan = self.plan
  local at, left = ffi.cast(bytes, piece), #piece
  repeat
    local status = plan.library.fiolargu_stream_feed(self.handle, at, left, plan.fed, plan.hits, plan.room, plan.count)
    if status ~= 0 then
      return refused(status)
    end
    local fed, count = tonumber(plan.fed[0]), tonumber(plan.count[0])
    if count > 0 then
      each(plan.hits, count)
    end
    at, left = at + fed, left - fed
  until left == 0
  return true
end

-- Begins a new stream by the same plan.
function Stream:restart()
  self.plan.library.fiolargu_stream_reset(self.handle, 0)
end

-- Frees the stream.
function Stream:close()
  self.plan.library.fiolargu_stream_close(self.handle)
end

return _M
