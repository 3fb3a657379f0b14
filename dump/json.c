/* JSON, member by member. */
#include "dump.h"

static void begin(struct json *json, const char *key)
{
    if (json->filled)
        put(json->sink, ",");
    if (key)
        put(json->sink, "\"%s\":", key);
    json->filled = 1;
}

void json_open(struct json *json, const char *key, char bracket)
{
    begin(json, key);
    put(json->sink, "%c", bracket);
    json->filled = 0;
}

void json_close(struct json *json, char bracket)
{
    put(json->sink, bracket == '}' ? "}\n" : "]");
    json->filled = 1;
}

void json_number(struct json *json, const char *key, uint64_t number)
{
    begin(json, key);
    put(json->sink, "%llu", (unsigned long long)number);
}

void json_flag(struct json *json, const char *key, int flag)
{
    begin(json, key);
    put(json->sink, flag ? "true" : "false");
}

void json_null(struct json *json, const char *key)
{
    begin(json, key);
    put(json->sink, "null");
}

/* The bytes of a UTF-8 sequence that begins here, 0 where none does: a file's name may be any bytes. */
static int sequence(const unsigned char *at)
{
    int length = at[0] < 0x80 ? 1 : at[0] >= 0xC2 && at[0] < 0xE0 ? 2 : at[0] >= 0xE0 && at[0] < 0xF0 ? 3
               : at[0] >= 0xF0 && at[0] < 0xF5 ? 4 : 0;
    int i;
    for (i = 1; i < length; i++)
        if ((at[i] & 0xC0) != 0x80)
            return 0;
    if ((at[0] == 0xE0 && at[1] < 0xA0) || (at[0] == 0xED && at[1] > 0x9F) || (at[0] == 0xF0 && at[1] < 0x90)
        || (at[0] == 0xF4 && at[1] > 0x8F))
        return 0;
    return length;
}

/* `<` is written as its number, so that the text can stand inside a page's script. */
void json_text(struct json *json, const char *key, const char *text)
{
    const unsigned char *at = (const unsigned char *)text;
    begin(json, key);
    put(json->sink, "\"");
    while (*at) {
        int length = sequence(at);
        if (*at == '"' || *at == '\\')
            put(json->sink, "\\%c", *at);
        else if (*at < 0x20 || *at == '<' || *at == 0x7F)
            put(json->sink, "\\u%04x", *at);
        else if (length)
            put(json->sink, "%.*s", length, (const char *)at);
        else
            put(json->sink, "\\ufffd");
        at += length ? length : 1;
    }
    put(json->sink, "\"");
}
