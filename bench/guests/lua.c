/* Runs the Lua program that is its input, with those of Lua's libraries that need no files and no clock. */
#include <stdio.h>

#include "lauxlib.h"
#include "lua.h"
#include "lualib.h"
#include "system.h"

static char script[65536];

static const luaL_Reg libraries[] = {
    {LUA_GNAME, luaopen_base},
    {LUA_COLIBNAME, luaopen_coroutine},
    {LUA_TABLIBNAME, luaopen_table},
    {LUA_STRLIBNAME, luaopen_string},
    {LUA_MATHLIBNAME, luaopen_math},
};

int main(void)
{
    size_t length = read_input(script, sizeof script);
    lua_State *state = luaL_newstate();
    if (!state) {
        fprintf(stderr, "lua: out of memory\n");
        return 1;
    }
    for (size_t i = 0; i < sizeof libraries / sizeof *libraries; i++) {
        luaL_requiref(state, libraries[i].name, libraries[i].func, 1);
        lua_pop(state, 1);
    }
    if (luaL_loadbuffer(state, script, length, "=input") || lua_pcall(state, 0, 0, 0)) {
        fprintf(stderr, "lua: %s\n", lua_tostring(state, -1));
        return 1;
    }
    return 0;
}
