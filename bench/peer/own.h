// The static library's functions.
#pragma once
#include <cstddef>
#include <cstdint>
struct Account {
    uint32_t rows = UINT32_MAX, rounds = UINT32_MAX, tally = 0;
};
extern "C" {
uint32_t kudzuclamp_fresh(uint32_t *words, size_t size, Account *accounts, size_t count, uint32_t n, uint32_t rows);
uint32_t kudzuclamp_relation(uint32_t *words, size_t size, uint32_t t, const uint8_t *bytes, size_t length, uint32_t *peak);
uint32_t kudzuclamp_set(uint32_t *words, size_t size, Account *accounts, size_t count, uint32_t place, uint32_t r, uint32_t most, const uint8_t *bytes,
                        size_t length, uint32_t *node, uint32_t *rounds, uint32_t *peak);
uint32_t kudzuclamp_clear(uint32_t *words, size_t size, uint32_t r);
uint32_t kudzuclamp_collect(uint32_t *words, size_t size, uint32_t *kept);
uint32_t kudzuclamp_member(const uint32_t *words, size_t size, uint32_t r, uint32_t s, uint32_t *value);
uint32_t kudzuclamp_members(const uint32_t *words, size_t size, uint32_t r, const uint16_t *states, size_t count, uint16_t *order, size_t order_room,
                            uint8_t *answers, size_t answers_room, uint32_t *reads);
uint32_t kudzuclamp_count(const uint32_t *words, size_t size, uint32_t r, uint32_t *states);
uint32_t kudzuclamp_shortest(uint32_t *words, size_t size, uint16_t *list, size_t room, uint32_t a, uint32_t b, uint32_t t, uint32_t *states);
uint32_t kudzuclamp_cheapest(const uint32_t *words, size_t size, const uint8_t *prices, size_t count, uint64_t *work, size_t work_room,
                             uint16_t *states, size_t room, uint8_t *relations, size_t relations_room, uint32_t a, uint32_t b, uint32_t *total,
                             uint32_t *charge, uint32_t *states_count);
uint32_t kudzuclamp_force(uint32_t *words, size_t size, Account *accounts, size_t count, uint32_t place, uint32_t r, uint32_t most,
                          uint32_t goal, uint32_t guest, uint32_t machine, uint32_t *node, uint32_t *rounds, uint32_t *peak);
uint32_t kudzuclamp_react(uint32_t *words, size_t size, const Account *accounts, size_t count, uint32_t place, uint32_t most, uint32_t goal,
                          uint32_t guest, uint32_t machine, uint32_t state, uint32_t press, uint32_t *answer);
uint32_t kudzuclamp_logged(uint32_t *words, size_t size, uint16_t *list, size_t room, uint32_t t, const uint16_t *one, size_t one_length,
                           const uint16_t *two, size_t two_length);
uint32_t kudzuclamp_play(uint32_t *words, size_t size, const uint8_t *bytes, size_t length, uint32_t *list, size_t room, size_t *count);
}
