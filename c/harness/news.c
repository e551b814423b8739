/* What a record that a call wrote tells of a connection indication. */
#include "news.h"

#include "../layout.h"

enum { CONNECT_IND = 0x0e, DISCONNECT_IND = 0x14 };

/* Where the numbers stand in the fields of a written record. */
enum { AT_CODE = 0, AT_CONNECT_NUMBER = 4, AT_DISCONNECT_NUMBER = 12, AT_ORDER_NUMBER = 0 };

static struct news news_of_message(const struct record_out *written)
{
    struct news news = { .stream = written->stream };
    switch (record_out_number(written, AT_CODE)) {
    case CONNECT_IND:
        news.number = record_out_number(written, AT_CONNECT_NUMBER);
        news.fate = FATE_OPEN;
        break;
    case DISCONNECT_IND:
        news.number = record_out_number(written, AT_DISCONNECT_NUMBER);
        news.fate = FATE_WITHDRAWN;
        break;
    }
    return news;
}

/* An accept names the carrying stream; the indication is of the stream that the message came from. */
static struct news news_of_accept(const uint8_t *lent, const struct record_out *written)
{
    return (struct news){ lent[AT_STREAM], record_out_number(written, AT_ORDER_NUMBER), FATE_ACCEPTED };
}

static struct news news_of_disconnect(const uint8_t *lent, const struct record_out *written)
{
    enum fate fate = lent[AT_KIND] == 'X' ? FATE_DROPPED : FATE_DENIED;
    return (struct news){ written->stream, record_out_number(written, AT_ORDER_NUMBER), fate };
}

/* No indication has number 0: a disconnect with that number is about a connection. */
bool news_read(struct news *news, const uint8_t *lent, const struct record_out *written)
{
    switch (written->kind) {
    case 'P':
    case 'C':
        *news = news_of_message(written);
        break;
    case 'a':
        *news = news_of_accept(lent, written);
        break;
    case 'd':
        *news = news_of_disconnect(lent, written);
        break;
    default:
        return false;
    }
    return news->number != 0;
}
