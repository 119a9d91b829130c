/* A server that sends each message back to the connection that it came from. */
#include "guest.h"

static unsigned char message[GUEST_MOST_RECEIVED];

int main(void)
{
    for (;;) {
        struct guest_item item = guest_recv(message, sizeof message);

        if (item.kind != GUEST_MESSAGE)
            continue;
        if (guest_send(item.connection, message, item.length) != GUEST_SENT)
            return 1;
    }
}
