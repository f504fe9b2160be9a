-- Lua's own readings: LUA, of one token of its lexer; LUA_TONUMBER.
local is_literal = os.getenv("FORM") == "LUA"

-- one numeral of the lexer: letters, digits and points, and a sign only after an exponent's mark
local function is_one(text)
    local mark = text:match("^0[xX]") and "[pP]" or "[eE]"
    return text:match("^%.?%d") and not text:gsub(mark .. "[+-]", ""):match("[^%w.]")
end

local function read(text)
    if not is_literal then return tonumber(text) end
    local chunk = is_one(text) and load("return " .. text)
    return chunk and chunk()
end

for text in io.lines() do
    local value = read(text)
    local kind = math.type(value)
    if kind == "integer" then
        -- a hexadecimal integer wraps to 64 bits
        local sign, digits = text:match("^([+-]?)0[xX]0*(%x*)$")
        local is_wrapped = digits and #digits > (value < 0 and 15 or 16)
        print(is_wrapped and "i?" or "i" .. value)
    elseif kind == "float" then
        print("f" .. string.format("%016x", string.unpack(">i8", string.pack(">d", value))))
    else
        print("-")
    end
end
