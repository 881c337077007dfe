"""Made by `make options` from common/shades.def."""

from typing import NamedTuple


class Shade(NamedTuple):
    byte: int
    kind: str
    class_name: str
    legend: str
    where: str


SHADES = (
    Shade(0xfa, "HEAP", "heap-buffer-overflow", "Heap left redzone",
          "in the redzone of a heap block"),
    Shade(0xfd, "HEAP", "heap-use-after-free", "Freed heap region",
          "in a freed heap block"),
    Shade(0xf1, "STACK", "stack-buffer-underflow", "Stack left redzone",
          "in the left redzone of a stack frame"),
    Shade(0xf2, "STACK", "stack-buffer-overflow", "Stack mid redzone",
          "in the redzone of a variable on the stack"),
    Shade(0xf3, "STACK", "stack-buffer-overflow", "Stack right redzone",
          "in the right redzone of a variable on the stack"),
    Shade(0xf5, "STACK", "stack-use-after-return", "Stack after return",
          "in the frame of a function that has returned"),
    Shade(0xf8, "STACK", "stack-use-after-scope", "Stack use after scope",
          "in a variable whose scope has ended"),
    Shade(0xf9, "GLOBAL", "global-buffer-overflow", "Global redzone",
          "in the redzone of a global variable"),
    Shade(0xf6, "GLOBAL", "initialization-order-fiasco", "Global init order",
          "in a global variable that is not initialised yet"),
    Shade(0xf7, "USER", "use-after-poison", "Poisoned by user",
          "in memory that the program poisoned"),
    Shade(0xfc, "USER", "container-overflow", "Container overflow",
          "in a container's memory, outside its elements"),
    Shade(0xac, "HEAP", "heap-buffer-overflow", "Array cookie",
          "in the count before an array of new[]"),
    Shade(0xbb, "USER", "intra-object-overflow", "Intra object redzone",
          "in a redzone between members of an object"),
    Shade(0xca, "STACK", "dynamic-stack-buffer-overflow", "Left alloca redzone",
          "in the left redzone of an alloca"),
    Shade(0xcb, "STACK", "dynamic-stack-buffer-overflow", "Right alloca redzone",
          "in the right redzone of an alloca"),
)
