/* A server of HTTP/1.1, with these pages:
 *
 *     GET  /                 a page in HTML that tells of the others
 *     GET  /hello?name=Ann   `Hello, Ann!`
 *     GET  /count            `request 3`: how many came for this page, this one too
 *     POST /echo             the body that came
 *
 * Whoever may GET may also ask for the HEAD. It runs with `--frame whole`. What it answers where it can't is told in http.h.
 */
#include "http.h"

static const char plain[] = "text/plain; charset=utf-8";

static struct answer write_start(const struct request *request)
{
    (void)request;
    put("<!DOCTYPE html>\n"
        "<html lang=\"en\">\n"
        "<head><meta charset=\"utf-8\"><title>A server in a guest</title></head>\n"
        "<body>\n"
        "<h1>A server in a guest</h1>\n"
        "<ul>\n"
        "<li><a href=\"/hello?name=Ann\">/hello?name=Ann</a> greets.</li>\n"
        "<li><a href=\"/count\">/count</a> counts.</li>\n"
        "<li>/echo sends back what is posted.</li>\n"
        "</ul>\n"
        "</body>\n"
        "</html>\n");
    return (struct answer){200, "text/html; charset=utf-8", ""};
}

static struct answer write_hello(const struct request *request)
{
    struct text value = field_of(request->query, "name");

    if (value.length == 0)
        value = (struct text){"world", 5};
    put("Hello, ");
    while (value.length > 0) {
        char c;

        if (!take_char(&value, 1, &c))
            return told(400, "");
        put_char(c);
    }
    put("!\n");
    return (struct answer){200, plain, ""};
}

static struct answer write_count(const struct request *request)
{
    static unsigned count;

    (void)request;
    put("request ");
    put_number(++count, 1);
    put("\n");
    return (struct answer){200, plain, ""};
}

static struct answer write_echo(const struct request *request)
{
    put_text(request->body);
    return (struct answer){200, "application/octet-stream", ""};
}

static const struct page pages[] = {
    {"/", GET, write_start},
    {"/hello", GET, write_hello},
    {"/count", GET, write_count},
    {"/echo", POST, write_echo},
};

int main(void)
{
    serve(pages, sizeof pages / sizeof *pages);
}
