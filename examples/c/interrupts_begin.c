/* The linker puts the library behind this. */
void library_begins(void);
void library_begins(void)
{
}
