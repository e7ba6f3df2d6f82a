"""Functions of the C library and of C++ whose meaning LLVM knows by their names ("TargetLibraryInfo")."""

import re

NAMES = frozenset("""
abs access aligned_alloc atexit atof atoi atol atoll bcmp bcopy bzero calloc chmod chown clearerr closedir ctermid execl execle execlp execv
execvP execve execvp execvpe fclose fdopen feof ferror fflush ffs ffsl ffsll fgetc fgetpos fgets fileno fiprintf flockfile fls flsl flsll
fopen fopen64 fork fprintf fputc fputs fread free fscanf fseek fseeko fseeko64 fsetpos fstat fstat64 fstatvfs fstatvfs64 ftell ftello
ftello64 ftrylockfile funlockfile fwrite getc getchar getenv getitimer getlogin_r getpwnam gets gettimeofday htonl htons iprintf isascii
isdigit labs lchown llabs lstat lstat64 malloc memalign memccpy memchr memcmp memcpy memmove mempcpy memrchr memset memset_pattern16
memset_pattern4 memset_pattern8 mkdir mktime ntohl ntohs open open64 opendir pclose perror popen posix_memalign pread printf putc putchar puts
pvalloc pwrite qsort read readlink realloc reallocarray reallocf realpath remove rename rewind rmdir scanf setbuf setitimer setvbuf siprintf
snprintf sprintf sscanf stat stat64 statvfs statvfs64 stpcpy stpncpy strcasecmp strcat strchr strcmp strcoll strcpy strcspn strdup strlcat
strlcpy strlen strncasecmp strncat strncmp strncpy strndup strnlen strpbrk strrchr strspn strstr strtod strtof strtok strtok_r strtol strtold
strtoll strtoul strtoull strxfrm system times tmpfile tmpfile64 toascii uname ungetc unlink unsetenv utime utimes valloc vfprintf vfscanf
vprintf vscanf vsnprintf vsprintf vsscanf wcslen write
""".split())
# Functions of floating point, operators `new` and `delete`, checked and internal forms, and input and output without locks.
PATTERN = re.compile(r"(a?(?:cos|sin|tan)h?|atan2|cbrt|ceil|copysign|cospi|sinpi|sincos(?:pi)?|erf|exp(?:2|10|m1)?|fabs|cabs|floor"
                     r"|fma|fmax|fmin|fmod|frexp|hypot|ldexp|log(?:1p|2|10|b)?|modf|nearbyint|pow|remainder|remquo|fdim|rint|round|roundeven|sqrt|tgamma|lgamma"
                     r"|trunc|l?lrint|l?lround|scalbl?n|ilogb|nan)[fl]?|_Z(?:n|d)[aw].*|__\w+|\w+_unlocked|vec_\w+|\?\?.*|_\w+")


def is_known(name: str) -> bool:
    """Whether LLVM may know what a function of this name does. Names that begin with `_` are all taken for such."""
    return name in NAMES or PATTERN.fullmatch(name) is not None
