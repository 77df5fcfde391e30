#include <lauxlib.h>
#include <lua.h>
#include <lualib.h>
#include <stdio.h>
#include <string.h>

static int read_sensor(lua_State *lua) {
    lua_pushinteger(lua, strcmp(luaL_checkstring(lua, 1), "indoors") ? 4 : 21);
    return 1;
}

int main(void) {
    const char *script = "io.write('Indoors ', sensor('indoors'), ', outdoors ', sensor('outdoors'), '.')";
    lua_State *lua = luaL_newstate();
    if (!lua)
        return 1;
    luaL_openlibs(lua);
    lua_register(lua, "sensor", read_sensor);
    const int failed = luaL_dostring(lua, script);
    putchar('\n');
    lua_close(lua);
    return failed;
}
