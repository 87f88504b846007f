/* Whether the fields of autonet.h lie where the library has them: it fills each byte of each field with the
 * place of the field, and all other bytes stay as they were. Prints what has moved, and ends with 1. */
#include "autonet.h"
#include <stdio.h>
#include <string.h>

static int moved;

/* Each byte of the field is `place`, and no other byte of the struct is. */
static void field(const char *name, const uint8_t *whole, size_t all, size_t at, size_t size, int place) {
    for (size_t i = 0; i < all; i++)
        if ((whole[i] == place) != (i >= at && i < at + size)) {
            printf("moved: %s, byte %zu is %d\n", name, i, whole[i]);
            moved = 1;
            return;
        }
    printf("%s at %zu, %zu bytes\n", name, at, size);
}

#define FIELD(type, of, name, place)                                                                      \
    field(#type "." #name, (const uint8_t *)&(of), sizeof(type), offsetof(type, name), sizeof((of).name), \
          place)

int main(void) {
    autonet_shown shown;
    autonet_port_shown port;
    autonet_row_shown row;
    autonet_member_shown member;
    autonet_frame_shown frame;
    memset(&shown, 0xff, sizeof shown);
    memset(&port, 0xff, sizeof port);
    memset(&row, 0xff, sizeof row);
    memset(&member, 0xff, sizeof member);
    memset(&frame, 0xff, sizeof frame);
    autonet_fields(&shown, &port, &row, &member, &frame);
    FIELD(autonet_shown, shown, epoch, 1);
    FIELD(autonet_shown, shown, table_epoch, 2);
    FIELD(autonet_shown, shown, works, 3);
    FIELD(autonet_shown, shown, carried, 4);
    FIELD(autonet_shown, shown, members, 5);
    FIELD(autonet_shown, shown, number, 6);
    FIELD(autonet_shown, shown, load_due, 7);
    FIELD(autonet_shown, shown, unacked, 8);
    FIELD(autonet_shown, shown, spent, 9);
    FIELD(autonet_shown, shown, noframe, 10);
    FIELD(autonet_shown, shown, lost, 11);
    FIELD(autonet_port_shown, port, uid, 1);
    FIELD(autonet_port_shown, port, boot, 2);
    FIELD(autonet_port_shown, port, port, 3);
    FIELD(autonet_port_shown, port, state, 4);
    FIELD(autonet_row_shown, row, exits, 1);
    FIELD(autonet_row_shown, row, entry, 2);
    FIELD(autonet_row_shown, row, to, 3);
    FIELD(autonet_member_shown, member, uid, 1);
    FIELD(autonet_member_shown, member, boot, 2);
    FIELD(autonet_member_shown, member, number, 3);
    FIELD(autonet_frame_shown, frame, length, 1);
    FIELD(autonet_frame_shown, frame, port, 2);
    return moved;
}
