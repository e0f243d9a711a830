/*
 * Prints the type tables that PipeWire's headers define, one line an entry: the facts of which generate.py makes tables.rt.
 *
 *   table T                          the entries that follow are of table T
 *   NUMBER TAB TYPE TAB NAME TAB T   an entry: its number, the type of its value, its name, and the table of that value's
 *                                    numbers, -1 where there is none
 *
 * Table 0 has the types, 1 the shapes of choices, 2 the types of controls; the others are those that these lead to.
 */
#include <stdio.h>

#include <spa/debug/types.h>
#include <spa/param/type-info.h>
#include <spa/pod/pod.h>
#include <spa/utils/type-info.h>

#define TABLE_LIMIT 200

static const struct spa_type_info *tables[TABLE_LIMIT];
static int table_count;

/* The number of a table, which is a new one where it wasn't met before. */
static int number_of(const struct spa_type_info *table)
{
	int number;

	for (number = 0; number < table_count; number++)
		if (tables[number] == table)
			return number;
	tables[table_count] = table;
	return table_count++;
}

int main(void)
{
	const struct spa_type_info *entry;
	int number;

	number_of(SPA_TYPE_ROOT);
	number_of(spa_type_choice);
	number_of(spa_type_control);
	for (number = 0; number < table_count; number++) {
		printf("table %d\n", number);
		for (entry = tables[number]; entry->name; entry++)
			printf("%u\t%u\t%s\t%d\n", entry->type, entry->parent, entry->name,
			       entry->values ? number_of(entry->values) : -1);
	}
	return 0;
}
