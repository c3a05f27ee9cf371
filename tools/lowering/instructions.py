"""The functions that lower instructions, by the word of the instruction. Each takes the function, the tokens after the word,
the register that is assigned (an empty text if there is none), and the word."""
from .calls import INSTRUCTIONS as CALLS
from .control import INSTRUCTIONS as CONTROL
from .floats import INSTRUCTIONS as FLOATS
from .integers import INSTRUCTIONS as INTEGERS
from .memory import INSTRUCTIONS as MEMORY
from .vectors import INSTRUCTIONS as VECTORS
from .writer import Instruction

INSTRUCTIONS: dict[str, Instruction] = {**INTEGERS, **FLOATS, **MEMORY, **CONTROL, **CALLS, **VECTORS}
