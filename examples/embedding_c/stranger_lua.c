#include <lauxlib.h>
#include <lua.h>
#include <lualib.h>
#include <stdio.h>
#include <stdlib.h>

enum { MEMORY = 100000, STEPS = 20000, OUTPUT = 24, KEPT = 30 };

static size_t memory_left, written;

static void *allocate(void *context, void *old, size_t old_size, size_t new_size) {
    const size_t before = old ? old_size : 0;
    (void)context;
    if (new_size > before && new_size - before > memory_left)
        return NULL;
    void *const made = new_size ? realloc(old, new_size) : NULL;
    if (!new_size)
        free(old);
    if (made || !new_size)
        memory_left += before - new_size;
    return made;
}

static void stop(lua_State *lua, lua_Debug *where) {
    (void)where;
    luaL_error(lua, "steps");
}

static int print(lua_State *lua) {
    size_t length;
    const char *text = luaL_checklstring(lua, 1, &length);
    if (length > OUTPUT - written) {
        lua_pushliteral(lua, "prints too much");
        return lua_error(lua);
    }
    written += fwrite(text, 1, length, stdout);
    return 0;
}

static lua_State *opened(void) {
    memory_left = MEMORY;
    lua_State *lua = lua_newstate(allocate, NULL);
    if (!lua)
        exit(1);
    luaL_requiref(lua, LUA_GNAME, luaopen_base, 1);
    lua_register(lua, "print", print);
    return lua;
}

/* Runs a script within its budgets, and says how it ended. */
static void run(lua_State **lua, const char *script) {
    written = 0;
    lua_sethook(*lua, stop, LUA_MASKCOUNT, STEPS);
    const int failed = luaL_loadstring(*lua, script) || lua_pcall(*lua, 0, 0, 0);
    const char *const why = failed ? lua_tostring(*lua, -1) : "input ended";
    lua_gc(*lua, LUA_GCCOLLECT);
    const int keeps_too_much = lua_gc(*lua, LUA_GCCOUNT) > KEPT;
    printf(": %s\n", keeps_too_much ? "keeps too much" : why);
    lua_settop(*lua, 0);
    if (!keeps_too_much)
        return;
    /* What it kept can't be told from what there was before. */
    lua_close(*lua);
    *lua = opened();
}

int main(void) {
    static const char *const scripts[] = {
        "A = 'kept' print('hello')",
        "while true do end",
        "while true do print('spam ') end",
        "D = {} for i = 1, 2000 do D[i] = i end",
        "print('kept: ' .. tostring(A))",
    };
    lua_State *lua = opened();
    for (size_t i = 0; i < sizeof scripts / sizeof scripts[0]; i++)
        run(&lua, scripts[i]);
    lua_close(lua);
    return 0;
}
