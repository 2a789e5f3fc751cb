/* The viewer: carries bytes between the real terminal and a session. */
#ifndef GLASS_VIEWER_H
#define GLASS_VIEWER_H

/* Looks at the session at the other end of the line until it is let go. The status for the command. */
int view(int line);

/* Asks how the session is, and says so on standard output after its name. */
void ask(int line, const char *name);

#endif
