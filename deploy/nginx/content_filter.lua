-- Searches the bodies of responses for a list of literals, and blocks or tags a response that has one. Each response has a stream
-- of its own, so that a literal is found however nginx and its upstream cut the body. content_filter.conf shows how it is used.
local fiolargu = require "fiolargu"

local _M = {}
-- How many different literals of a response are named, and how many streams a worker keeps for later responses.
local NAMED, KEPT = 8, 64
local plan
local kept = {}

-- Plans the lines of a file. Called once, before workers start; nginx does not start where it fails. `options` may have
-- `ignore_case` and `library`.
function _M.load(path, options)
  local file = assert(io.open(path, "rb"))
  local text = file:read "*a"
  file:close()
  local made, message = fiolargu.plan_of_lines(text, options)
  if not made then
    error(path .. ": " .. message, 0)
  end
  plan = made
end

-- What is known of the response so far.
local function begun()
  local own = ngx.ctx.fiolargu
  if not own then
    local stream, message = table.remove(kept), nil
    if not stream then
      stream, message = plan:stream()
    end
    own = {stream = stream, message = message, count = 0, numbers = {}, names = {}}
    own.each = function(hits, count)
      own.count = own.count + count
      for place = 0, count - 1 do
        if #own.names == NAMED then
          return
        end
        local number = hits[place].literal
        if not own.numbers[number] then
          own.numbers[number] = true
          own.names[#own.names + 1] = ngx.escape_uri(plan:literal(number))
        end
      end
    end
    ngx.ctx.fiolargu = own
  end
  return own
end

-- Feeds the next chunk of the body. Gives what is known then, and a message where the chunk could not be searched.
local function fed()
  local own = begun()
  if own.stream and ngx.arg[1] ~= "" then
    local is_fed, message = own.stream:feed(ngx.arg[1], own.each)
    if not is_fed then
      own.message = message
    end
  end
  return own, own.message
end

-- Puts the number of hits and the first literals into the variables of the response, for trailers and logs.
local function shown(own)
  ngx.var.fiolargu_hits = own.count
  ngx.var.fiolargu_literals = table.concat(own.names, ",")
end

-- For header_filter_by_lua: makes room for trailers, which a response of a known length has not.
function _M.without_length()
  ngx.header.content_length = nil
end

-- For body_filter_by_lua: passes the body on, and then says how many hits it has. "unknown" where it could not be searched.
function _M.tag()
  local own, message = fed()
  if ngx.arg[2] then
    shown(own)
    if message then
      ngx.var.fiolargu_hits = "unknown"
      ngx.log(ngx.ERR, "fiolargu: ", message)
    end
  end
end

-- For body_filter_by_lua: passes the body on as long as it has no hit. The chunk in which one ends is dropped, and the connection
-- is closed before the response is whole; so too where the body cannot be searched.
function _M.block()
  local own, message = fed()
  if own.count == 0 and not message then
    return
  end
  if not own.is_blocked then
    own.is_blocked = true
    shown(own)
    -- The address as the client sent it: `uri` is decoded, and a newline in it would begin a line of the log.
    local address, reason = ngx.var.request_uri, message or ngx.var.fiolargu_literals
    ngx.log(message and ngx.ERR or ngx.WARN, "fiolargu: blocked ", address, ": ", reason)
  end
  -- nginx passes nothing on, and closes the connection.
  return ngx.ERROR
end

-- For log_by_lua: keeps the stream for another response, or frees it. It runs for responses that a client left, too.
function _M.close()
  local own = ngx.ctx.fiolargu
  if not own or not own.stream then
    return
  end
  if #kept < KEPT then
    own.stream:restart()
    kept[#kept + 1] = own.stream
  else
    own.stream:close()
  end
  ngx.ctx.fiolargu = nil
end

return _M
