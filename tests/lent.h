/* Shows the thread sanitizer what the library reads and writes, for it does not see into compiled code: before a call the first byte of the
 * register and of the table that are lent to it is read, or written as it was. tests/examples puts it before examples/gateway.c. */
#include "hrazvanut.h"

static inline int lent_to_read(const void *lent) { return lent ? *(const volatile char *)lent : 0; }
static inline int lent_to_write(void *lent) { return *(volatile char *)lent = *(volatile char *)lent; }

#define hrazvanut_decide(table, question) ((void)lent_to_read((table).start), hrazvanut_decide(table, question))
#define hrazvanut_find_input(table, group, letter) ((void)lent_to_read((table).start), hrazvanut_find_input(table, group, letter))
#define hrazvanut_stopping_input(table, group, letter) ((void)lent_to_read((table).start), hrazvanut_stopping_input(table, group, letter))
#define hrazvanut_next_input_checked(table, input) ((void)lent_to_read((table).start), hrazvanut_next_input_checked(table, input))
#define hrazvanut_right_of(reg, place) ((void)lent_to_read(reg), hrazvanut_right_of(reg, place))
#define hrazvanut_remove_client(reg, place) ((void)lent_to_write(reg), hrazvanut_remove_client(reg, place))
#define hrazvanut_add_client(reg, table, client) \
    ((void)lent_to_write(reg), (void)lent_to_read((table).start), hrazvanut_add_client(reg, table, client))
#define hrazvanut_set_reading_checked(reg, table, group, letter, reading) \
    ((void)lent_to_write(reg), (void)lent_to_read((table).start), hrazvanut_set_reading_checked(reg, table, group, letter, reading))
#define hrazvanut_reload(reg, text, room) \
    ((void)lent_to_write(reg), (void)lent_to_write((room).start), hrazvanut_reload(reg, text, room))
