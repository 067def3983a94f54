/* A table from words to counts, with lists for the words of one hash. */

extern void *malloc(unsigned long size);
extern void free(void *place);
extern int printf(const char *format, ...);

enum { BUCKETS = 64, LONGEST = 31 };

struct entry {
    struct entry *next;
    unsigned int hash;
    int count;
    char word[LONGEST + 1];
};

struct table {
    struct entry *buckets[BUCKETS];
    unsigned long entries;
};

static unsigned int hash_of(const char *word)
{
    unsigned int hash = 2166136261u;

    while (*word != '\0') {
        hash ^= (unsigned char) *word++;
        hash *= 16777619u;
    }
    return hash;
}

static int same(const char *a, const char *b)
{
    for (; *a == *b; a++, b++)
        if (*a == '\0')
            return 1;
    return 0;
}

static void copy(char *to, const char *from, int room)
{
    while (--room > 0 && (*to++ = *from++) != 0)
        ;
    *to = 0;
}

void clear(struct table *table)
{
    int place;

    for (place = 0; place < BUCKETS; place++)
        table->buckets[place] = (void *) 0;
    table->entries = 0UL;
}

struct entry *find(const struct table *table, const char *word)
{
    unsigned int hash = hash_of(word);
    struct entry *entry = table->buckets[hash % BUCKETS];

    while (entry && (entry->hash != hash || !same(entry->word, word)))
        entry = entry->next;
    return entry;
}

/* Counts the word; gives 0 where there is no memory. */
int add(struct table *table, const char *word)
{
    struct entry *entry = find(table, word), **bucket;

    if (entry) {
        entry->count += 1;
        return 1;
    }
    entry = malloc(sizeof *entry);
    if (!entry)
        return 0;
    entry->hash = hash_of(word);
    entry->count = 1;
    copy(entry->word, word, sizeof entry->word);
    bucket = &table->buckets[entry->hash % BUCKETS];
    entry->next = *bucket;
    *bucket = entry;
    ++table->entries;
    return 1;
}

void drop(struct table *table)
{
    int place;

    for (place = 0; place < BUCKETS; place++) {
        struct entry *entry = table->buckets[place];

        while (entry) {
            struct entry *next = entry->next;

            free(entry);
            entry = next;
        }
    }
    clear(table);
}

void each(const struct table *table, void (*call)(const char *word, int count, void *with), void *with)
{
    int place;

    for (place = 0; place < BUCKETS; place++) {
        const struct entry *entry;

        for (entry = table->buckets[place]; entry; entry = entry->next)
            call(entry->word, entry->count, with);
    }
}

static void show(const char *word, int count, void *with)
{
    long *sum = (long *) with;

    *sum += count;
    printf("%-20s %d\n", word, count);
}

int main(void)
{
    static const char *words[] = { "one", "two", "two", "three", "three", "three", 0 };
    struct table table;
    const char **word;
    long sum = 0;

    clear(&table);
    for (word = words; *word; word++)
        if (!add(&table, *word))
            return 1;
    each(&table, show, &sum);
    printf("%ld words, %lu of them " "different\n", sum, table.entries);
    drop(&table);
    return 0;
}
