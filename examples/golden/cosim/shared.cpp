// The Verilog router as a shared library, for examples/python/cosim.py.
#include "router.h"

extern "C" {

void *router_new(uint32_t tile, uint32_t mistake) {
  return new Router(tile, static_cast<uint8_t>(mistake));
}

uint32_t router_attempt(void *router, uint32_t choice, uint32_t number, uint64_t *row, size_t length) {
  return static_cast<Router *>(router)->attempt(choice, number, row, length);
}

void router_free(void *router) { delete static_cast<Router *>(router); }
}
