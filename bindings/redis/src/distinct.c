/* Strings without repeats, each with a weight, to find out what the items of a command are before or after it.
 *
 * The set is a table of pointers to the caller's bytes, which it hashes under a random key: no way is known to choose strings that
 * collide. */
#include "module.h"

#include <string.h>

/* Returns the key of all sets of the process. */
static const ds_key *key_of_sets(void)
{
    static ds_key key;
    static bool is_drawn;
    if (!is_drawn) key = (ds_key){random_word(), random_word()};
    is_drawn = true;
    return &key;
}

/* Returns the place of a string: the one that has it, or a free one. */
static Place *place_of(Place *places, size_t room, ds_string string, uint64_t hash)
{
    size_t at = (size_t)hash & (room - 1);
    while (places[at].string.bytes != NULL && (places[at].hash != hash || places[at].string.length != string.length ||
                                               memcmp(places[at].string.bytes, string.bytes, string.length) != 0))
        at = (at + 1) & (room - 1);
    return &places[at];
}

/* Grows the table. Returns false if there is no memory. */
static bool grow(Distinct *set)
{
    size_t room = 2 * set->room;
    Place *places;
    if (set->room == 0) {
        memset(set->few, 0, sizeof set->few);
        set->places = set->few;
        set->room = sizeof set->few / sizeof *set->few;
        return true;
    }
    places = try_block(room * sizeof *places);
    if (places == NULL) return false;
    memset(places, 0, room * sizeof *places);
    for (size_t i = 0; i < set->room; i++)
        if (set->places[i].string.bytes != NULL)
            *place_of(places, room, set->places[i].string, set->places[i].hash) = set->places[i];
    free_distinct(set);
    set->places = places;
    set->room = room;
    return true;
}

int32_t add_distinct(Distinct *set, ds_string string, uint64_t weight)
{
    const ds_key *key = key_of_sets();
    uint64_t hash = ds_keyed_hash(string.bytes, string.length, key->k0, key->k1);
    Place *place;
    if (2 * set->count >= set->room && !grow(set)) return DS_NO_MEMORY;
    place = place_of(set->places, set->room, string, hash);
    if (place->string.bytes != NULL) {
        place->weight += weight;
        return DS_NO;
    }
    *place = (Place){string, hash, weight};
    set->count++;
    return DS_YES;
}

void free_distinct(Distinct *set)
{
    if (set->places != set->few) free_block(set->places);
}
