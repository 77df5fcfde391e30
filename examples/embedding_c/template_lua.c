#include <lauxlib.h>
#include <lua.h>
#include <lualib.h>
#include <string.h>

static const char letter[] = "Dear NAME,\nsee you on DAY (at noon).\n";
static const char script[] = "io.write((letter:gsub('%u%u+', {NAME = field('name'), DAY = field('day')})))";
static const char *const people[][2] = {{"Ada", "Monday"}, {"#(da), Ltd.", "Friday"}};

/* What a person has in the field that a call names. */
static int field_of(lua_State *lua) {
    const char *const *person = lua_touserdata(lua, lua_upvalueindex(1));
    lua_pushstring(lua, person[strcmp(luaL_checkstring(lua, 1), "name") ? 1 : 0]);
    return 1;
}

int main(void) {
    int failed = 0;
    lua_State *lua = luaL_newstate();
    if (!lua)
        return 1;
    luaL_openlibs(lua);
    lua_pushstring(lua, letter);
    lua_setglobal(lua, "letter");
    for (size_t i = 0; i < sizeof people / sizeof people[0]; i++) {
        lua_pushlightuserdata(lua, (void *)people[i]);
        lua_pushcclosure(lua, field_of, 1);
        lua_setglobal(lua, "field");
        failed |= luaL_dostring(lua, script);
    }
    lua_close(lua);
    return failed;
}
