/* Do the names in calmuredda.h mean what the library answers? Prints those that do not. */
int check_names(void);
