/* SHIFT octets before the library's code, which shift its addresses. On some processors, a loop takes up to a
 * third more time if its jumps cross a boundary of 32 octets or end at one, and that is a matter of chance.
 */

#define TEXT(number) #number
#define OCTETS(number) TEXT(number)

__asm__(".text\n\t.fill " OCTETS(SHIFT) ", 1, 0x90\n");
