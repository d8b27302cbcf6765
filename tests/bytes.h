// Events and numbers as bytes, for lists and tables that a test writes out. Hosts use the functions of cuddystove.h: here an argument is
// evaluated more than once and cut to its byte.
#define BYTES(n) (uint8_t)((uint32_t)(n) >> 24), (uint8_t)((uint32_t)(n) >> 16), (uint8_t)((uint32_t)(n) >> 8), (uint8_t)(uint32_t)(n)
#define FIRE(a) CUDDYSTOVE_TAG_FIRE, 0, 1, (uint8_t)(a)
#define DELIVER(a, b) CUDDYSTOVE_TAG_DELIVER, 0, 2, (uint8_t)(a), (uint8_t)(b)
#define LOSE(a, b) CUDDYSTOVE_TAG_LOSE, 0, 2, (uint8_t)(a), (uint8_t)(b)
#define LINK(a, b, distance) CUDDYSTOVE_TAG_LINK, 0, 6, (uint8_t)(a), (uint8_t)(b), BYTES(distance)
#define SIGNAL(a, sensor, lit) CUDDYSTOVE_TAG_SIGNAL, 0, 3, (uint8_t)(a), (uint8_t)(sensor), (uint8_t)(lit)
