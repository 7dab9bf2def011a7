/* The linker puts the library before this. */
void library_ends(void);
void library_ends(void)
{
}
