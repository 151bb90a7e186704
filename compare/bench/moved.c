/* Code that is never run: MOVED bytes of it before the engine's move the engine's code by so many bytes in the program. */
#define TEXT_OF(x) #x
#define TEXT(x) TEXT_OF(x)

__asm__(".text\n.skip " TEXT(MOVED) ", 0x90\n");

int moved(void)
{
    return MOVED;
}
