/*
 * Which factories can read every order that our planners write?
 *
 *   tools/staticlib
 *   cc -Wall -Wextra -Iinclude examples/send_to_factory.c target/staticlib/libcompare.a -o send_to_factory
 *   ./send_to_factory examples/tables
 *
 * Prints GREEN for a factory that can, GREY with an order that it cannot read for one that cannot, and which table is
 * at fault and why where nothing can be said.
 */
#include "formbook.h"

#include <stdio.h>

struct table {
    uint8_t text[4096];
    size_t length;
};

struct factory {
    const char *name;
    uint64_t row; /* the row of its order form */
};

static const uint64_t our_row = 3;

static const struct factory factories[] = {{"alder", 3}, {"birch", 0}, {"cedar", 5}, {"dogwood", 11}, {"elm", 3}};

static int load(struct table *table, const char *folder, const char *name) {
    char path[1024];
    FILE *file;
    int length = snprintf(path, sizeof path, "%s/%s.rows", folder, name);
    if (length < 0 || (size_t)length >= sizeof path) {
        return 0;
    }
    file = fopen(path, "rb");
    if (file == NULL) {
        perror(path);
        return 0;
    }
    table->length = fread(table->text, 1, sizeof table->text, file);
    length = ferror(file);
    fclose(file);
    return length == 0;
}

static const char *whose(unsigned layer) {
    switch (layer) {
    case FORMBOOK_OUR_TEXT:
    case FORMBOOK_OUR_TABLE:
        return "our table";
    case FORMBOOK_THEIR_TEXT:
    case FORMBOOK_THEIR_TABLE:
        return "their table";
    default:
        return "the question";
    }
}

static void print_fault(uint64_t result) {
    unsigned long long place = (unsigned long long)formbook_place(result);
    printf("FAULT: %s: ", whose(formbook_layer(result)));
    switch (formbook_code(result)) {
    case FORMBOOK_TEXT_TOO_LONG:
        printf("the text is too long\n");
        break;
    case FORMBOOK_WRONG_LINE:
        printf("line %llu is wrong in field %u\n", (unsigned long long)formbook_line(result), formbook_field(result));
        break;
    case FORMBOOK_TOO_MANY_LINES:
        printf("the text has too many lines\n");
        break;
    case FORMBOOK_TOO_MANY_ROWS:
        printf("the tables have too many rows together\n");
        break;
    case FORMBOOK_NO_ROWS:
        printf("there are no rows\n");
        break;
    case FORMBOOK_NUMBER_OUTSIDE:
        printf("a number in row %llu is not that of a row\n", place);
        break;
    case FORMBOOK_LABEL_TWICE:
        printf("row %llu offers a label twice\n", place);
        break;
    case FORMBOOK_ROW_OUTSIDE:
        printf("%s row asked about is not there\n", place == 0 ? "our" : "their");
        break;
    case FORMBOOK_ORDER_TOO_LONG:
        printf("an order that they cannot read is too long to show\n");
        break;
    default:
        printf("fault %u\n", formbook_code(result));
    }
}

static void print_answer(uint64_t result, const uint8_t *order) {
    if (formbook_is_yes(result)) {
        printf("GREEN\n");
    } else if (formbook_is_no(result)) {
        printf("GREY, it cannot read ");
        fwrite(order, 1, formbook_order_length(result), stdout);
        printf("\n");
    } else {
        print_fault(result);
    }
}

int main(int argc, char **argv) {
    const char *folder = argc > 1 ? argv[1] : "examples/tables";
    static struct table ours, theirs;
    static uint8_t order[32768];
    size_t k;
    if (!load(&ours, folder, "ours")) {
        return 1;
    }
    for (k = 0; k < sizeof factories / sizeof factories[0]; k++) {
        if (!load(&theirs, folder, factories[k].name)) {
            return 1;
        }
        printf("%s: ", factories[k].name);
        print_answer(compare(ours.text, ours.length, theirs.text, theirs.length, our_row, factories[k].row, 0, order, sizeof order), order);
    }
    return 0;
}
