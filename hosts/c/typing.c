/* Lines that are typed. libedit edits them if it is available, with a history that is kept in a file and with completed
 * names; otherwise the terminal edits them. */
#include "terminal.h"

#include <strings.h>
#include <sys/select.h>

#ifdef WITH_LIBEDIT
#include <fcntl.h>
#include <histedit.h>
#include <sys/ioctl.h>
#include <sys/stat.h>
#include <wchar.h>
#include <wctype.h>
#endif

volatile sig_atomic_t is_interrupted = 0;

static void interrupt(int number) {
    (void)number;
    is_interrupted = 1;
}

/* Makes a signal call a function and interrupt a system call. */
static void handle(int number, void (*handler)(int)) {
    struct sigaction action;
    memset(&action, 0, sizeof action);
    action.sa_handler = handler;
    (void)sigaction(number, &action, NULL);
}

/* Reads what is typed. A signal makes it fail with EINTR, even ^C that comes just before it waits. */
static ssize_t read_typed(void *to, size_t most) {
    sigset_t held, before;
    fd_set input;
    FD_ZERO(&input);
    FD_SET(STDIN_FILENO, &input);
    (void)sigemptyset(&held);
    (void)sigaddset(&held, SIGINT);
    (void)sigprocmask(SIG_BLOCK, &held, &before);
    const int count = is_interrupted ? -1 : pselect(STDIN_FILENO + 1, &input, NULL, NULL, NULL, &before);
    const int why = errno;
    (void)sigprocmask(SIG_SETMASK, &before, NULL);
    errno = is_interrupted ? EINTR : why;
    return count < 0 || is_interrupted ? -1 : read(STDIN_FILENO, to, most);
}

/* Reads a line, or a part of one, that the terminal edits. */
static reading type_plainly(text *to, const char *prompt, int is_shown, int *has_ended) {
    enum { MOST = 8192 };
    ssize_t count;
    if (!is_shown)
        (void)write_all(STDERR_FILENO, prompt, strlen(prompt));
    if (!reserve(to, MOST))
        return READ_SHORT;
    do
        count = read_typed(to->bytes + to->length, MOST);
    while (count < 0 && errno == EINTR && !is_interrupted);
    if (count <= 0 || is_interrupted)
        (void)write_all(STDERR_FILENO, "\n", 1);
    if (count < 0 || is_interrupted)
        return is_interrupted ? READ_INTERRUPTED : READ_FAILED;
    *has_ended = count == 0;
    to->length += (size_t)count;
    return READ;
}

#ifdef WITH_LIBEDIT

/* The number of lines that are kept in the file; if it has twice as many, it is cut. The number of names that are
 * offered, and the bytes in a line of them. The maximum number of characters that a window can show. */
enum { KEPT_LINES = 1000, MOST_NAMES = 100, LINE_OF_NAMES = 70, MOST_PLACES = 2000000 };

/* A byte that is no character is typed as the wide character whose number is greater by this, which is no character
 * either. */
enum { RAW = 0xDC00 };

static EditLine *editor;
static HistoryW *history_of_lines;
static const trac_machine *completed;
static wchar_t *prompt_shown;
static const char *history_file;

/* ---- Characters. */

static void ignore(int number) { (void)number; }

/* Treats a window with too many places as one with 24 lines of 80. Called before libedit asks for the size, because
 * libedit allocates memory for all places: when it begins, when it reads a line, and when the size changes. */
static void settle_window(void) {
    struct winsize size;
    if (ioctl(STDIN_FILENO, TIOCGWINSZ, &size) != 0 || (unsigned long)size.ws_row * size.ws_col <= MOST_PLACES)
        return;
    size.ws_row = 24;
    size.ws_col = 80;
    (void)ioctl(STDIN_FILENO, TIOCSWINSZ, &size);
}

/* Reads a byte: gives 1, 0 at the end, -1 if that failed or if ^C was typed before. Other signals mean that the program
 * continues, or that the screen has another size: then everything is shown again. */
static ssize_t read_byte(char *to) {
    ssize_t count;
    while ((count = read_typed(to, 1)) < 0 && errno == EINTR && !is_interrupted) {
        (void)el_wset(editor, EL_PREP_TERM, 0);
        (void)el_wset(editor, EL_PREP_TERM, 1);
        settle_window();
        el_resize(editor);
        (void)el_wset(editor, EL_REFRESH);
    }
    return count;
}

/* Takes the character at the front of some bytes, and gives its length; 0 if more bytes are needed, unless these are
 * all. */
static size_t take_character(const char *bytes, size_t length, int is_all, wchar_t *to) {
    mbstate_t state;
    memset(&state, 0, sizeof state);
    const size_t count = mbrtowc(to, bytes, length, &state);
    if (!length || (count == (size_t)-2 && !is_all))
        return 0;
    const int is_character = count > 0 && count <= length;
    if (is_character && (*to < 128 || *to > 255 || iswprint((wint_t)*to)))
        return count;
    *to = (wchar_t)(RAW + (unsigned char)*bytes);
    return 1;
}

/* Reads a character for the editor. What was typed before ^C is discarded. */
static int read_character(EditLine *of, wchar_t *to) {
    static char held[16];
    static size_t length;
    ssize_t count = 1;
    size_t taken;
    (void)of;
    while (!(taken = take_character(held, length, count <= 0 || length == sizeof held, to)) && count > 0) {
        count = read_byte(held + length);
        length = is_interrupted ? 0 : length + (size_t)(count > 0);
    }
    length -= taken;
    memmove(held, held + taken, length);
    return taken ? 1 : (int)count;
}

/* Adds wide characters as the bytes that were typed. */
static void add_wide(text *to, const wchar_t *from, size_t length) {
    mbstate_t state;
    memset(&state, 0, sizeof state);
    for (size_t i = 0; i < length; i++) {
        char bytes[16];
        const int is_raw = from[i] >= RAW && from[i] < RAW + 256;
        const size_t count = is_raw ? 1 : wcrtomb(bytes, from[i], &state);
        if (is_raw)
            bytes[0] = (char)(from[i] - RAW);
        add_bytes(to, bytes, count == (size_t)-1 ? 0 : count);
    }
}

/* A text as wide characters, which the caller frees; a null pointer if there is no memory. */
static wchar_t *wide_of(const char *from, size_t length) {
    wchar_t *const wide = (wchar_t *)malloc((length + 1) * sizeof(wchar_t));
    size_t count = 0;
    for (size_t at = 0; wide && at < length;)
        at += take_character(from + at, length - at, 1, wide + count++);
    if (wide)
        wide[count] = 0;
    return wide;
}

/* ---- Pasted text. */

/* Adds pasted text up to the keys that end it, unchanged except for line ends, which come as carriage returns. */
static unsigned char paste(EditLine *of, wint_t key) {
    static const wchar_t end[] = L"\033[201~";
    const size_t end_length = sizeof end / sizeof *end - 1;
    text pasted = {NULL, 0, 0, 0};
    size_t count = 0;
    int is_end = 0;
    wchar_t next;
    (void)key;
    while (!is_end && el_wgetc(of, &next) == 1) {
        next = next == L'\r' ? L'\n' : next;
        add_bytes(&pasted, &next, sizeof next);
        count = pasted.length / sizeof next;
        is_end = count >= end_length &&
                 !memcmp(pasted.bytes + (count - end_length) * sizeof next, end, end_length * sizeof next);
    }
    pasted.length = (count - (is_end ? end_length : 0)) * sizeof next;
    const int is_empty = !pasted.length;
    next = 0;
    add_bytes(&pasted, &next, sizeof next);
    const int is_put = !pasted.is_short && (is_empty || el_winsertstr(of, (wchar_t *)(void *)pasted.bytes) == 0);
    free(pasted.bytes);
    return is_put ? CC_REFRESH : CC_ERROR;
}

/* ---- Names that are completed. */

/* What is searched for: what was typed of an argument, its place among the arguments of its call, and the name of the
 * call's function. What was found: the number of names, each followed by a null byte, and their common beginning. */
typedef struct {
    text begun, function, names, common;
    size_t place, count;
} completion;

static int has_special(const uint8_t *name, size_t length) {
    size_t i = 0;
    while (i < length && name[i] > ' ' && name[i] != 127 && !strchr("#(),", name[i]) && name[i] != trac_meta(completed))
        i++;
    return i < length;
}

/* Where the arguments of the open call before the cursor begin; 0 if no call is open. */
static size_t find_call(const uint8_t *line, size_t length) {
    while (length && line[length - 1] != '(' && line[length - 1] != ')')
        length--;
    return length > 1 && line[length - 1] == '(' && line[length - 2] == '#' ? length : 0;
}

/* Notes the function of the call, and what was typed of its last argument. */
static void note_arguments(completion *of, const uint8_t *bytes, size_t length) {
    for (size_t i = 0; i < length; i++) {
        const int is_comma = bytes[i] == ',';
        of->place += (size_t)is_comma;
        of->begun.length = is_comma ? 0 : of->begun.length;
        add_bytes(&of->begun, bytes + i, (size_t)!is_comma);
        add_bytes(&of->function, bytes + i, (size_t)!of->place);
    }
}

/* Counts a name in if it begins with what was typed. */
static void offer(completion *of, const void *name, size_t length) {
    const uint8_t *const bytes = (const uint8_t *)name;
    size_t same = 0;
    if (length < of->begun.length || (of->begun.length && memcmp(bytes, of->begun.bytes, of->begun.length) != 0))
        return;
    while (same < length && same < of->common.length && bytes[same] == of->common.bytes[same])
        same++;
    if (of->count)
        of->common.length = same;
    else
        add_bytes(&of->common, name, length);
    add_bytes(&of->names, name, length);
    add_bytes(&of->names, "", 1);
    of->count++;
}

static void offer_forms(completion *of) {
    trac_form form = TRAC_NO_FORM;
    text name = {NULL, 0, 0, 0};
    while (trac_next_form(completed, &form))
        if (take_name(&name, &form) && name.length && !has_special(name.bytes, name.length))
            offer(of, name.bytes, name.length);
    free(name.bytes);
}

static void offer_functions(completion *of) {
    const known_function *function;
    for (size_t which = 0; (function = function_at(which)); which++)
        offer(of, function->name, strlen(function->name));
}

/* Whether the last argument is the name of a form. */
static int names_form(const completion *of) {
    const known_function *const function = function_named(of->function.bytes, of->function.length);
    const uint32_t forms = function ? function->facts.forms : TRAC_FORMS_NONE;
    return (forms == TRAC_FORMS_FIRST && of->place == 1) || (forms == TRAC_FORMS_EACH && of->place >= 1);
}

/* Shows the names, as many as fit the screen, in lines below the line of the cursor. */
static void show_names(const completion *of) {
    text shown = {NULL, 0, 0, 0}, escaped = {NULL, 0, 0, 0};
    size_t line = 0, count = 0;
    add_text(&shown, "\n");
    for (const char *name = (const char *)of->names.bytes; count < of->count && count < MOST_NAMES; count++) {
        const char *const word = shown_in(&escaped, name, strlen(name));
        const size_t length = strlen(word);
        add_text(&shown, line && line + length > LINE_OF_NAMES ? "\n" : line ? "  " : "");
        line = line && line + length > LINE_OF_NAMES ? length : line + length + 2;
        add_text(&shown, word);
        name += strlen(name) + 1;
    }
    add_text(&shown, of->count > MOST_NAMES ? "  ..\n" : "\n");
    (void)write_all(STDERR_FILENO, shown.bytes, shown.length);
    free(shown.bytes);
    free(escaped.bytes);
}

/* Completes the name before the cursor as far as the names that fit have the same characters; if several names fit,
 * shows them. */
static unsigned char complete(EditLine *of, wint_t key) {
    static completion found;
    const LineInfoW *const line = el_wline(of);
    text typed = {NULL, 0, 0, 0};
    unsigned char answer = CC_ERROR;
    (void)key;
    found.begun.length = found.function.length = found.names.length = found.common.length = 0;
    found.place = found.count = 0;
    add_wide(&typed, line->buffer, (size_t)(line->cursor - line->buffer));
    const size_t begin = find_call(typed.bytes, typed.length);
    if (begin)
        note_arguments(&found, typed.bytes + begin, typed.length - begin);
    if (begin && !found.place)
        offer_functions(&found);
    else if (begin && names_form(&found))
        offer_forms(&found);
    free(typed.bytes);
    if (found.count && found.common.length > found.begun.length) {
        wchar_t *const more =
            wide_of((const char *)found.common.bytes + found.begun.length, found.common.length - found.begun.length);
        answer = more && el_winsertstr(of, more) == 0 ? CC_REFRESH : CC_ERROR;
        free(more);
    } else if (found.count > 1) {
        show_names(&found);
        answer = CC_REDISPLAY;
    }
    return answer;
}

/* ---- The history. */

/* Puts a line into the history. */
static void remember(const char *line, size_t length) {
    HistEventW event;
    wchar_t *const wide = wide_of(line, length);
    if (wide && *wide)
        (void)history_w(history_of_lines, &event, H_ENTER, wide);
    free(wide);
}

/* Adds a line to what is written to the file, with a backslash before each of its line feeds and backslashes. */
static void add_kept(text *to, const char *line, size_t length) {
    for (size_t i = 0; i < length; i++) {
        const char kept[2] = {'\\', line[i] == '\n' ? 'n' : '\\'};
        if (line[i] == '\n' || line[i] == '\\')
            add_bytes(to, kept, 2);
        else
            add_bytes(to, line + i, 1);
    }
    add_text(to, "\n");
}

/* Reads a line of the file back, in place, and gives its length. */
static size_t take_kept(char *line, size_t length) {
    size_t count = 0;
    for (size_t i = 0; i < length; i++) {
        const int is_escape = line[i] == '\\' && i + 1 < length;
        i += (size_t)is_escape;
        line[count++] = (char)(is_escape && line[i] == 'n' ? '\n' : line[i]);
    }
    return count;
}

/* Appends to the file of the history. */
static void write_history(const char *bytes, size_t length) {
    const int file = history_file ? open(history_file, O_WRONLY | O_CREAT | O_CLOEXEC | O_APPEND, 0600) : -1;
    if (file < 0)
        return;
    (void)write_all(file, bytes, length);
    (void)close(file);
}

/* Keeps a line that was typed. */
static void keep_line(const text *line) {
    text kept = {NULL, 0, 0, 0};
    const size_t length = line->length - (line->length && line->bytes[line->length - 1] == '\n');
    if (length) {
        remember((const char *)line->bytes, length);
        add_kept(&kept, (const char *)line->bytes, length);
        write_history((const char *)kept.bytes, kept.length);
    }
    free(kept.bytes);
}

/* Where the last lines of the file begin, for a given number of lines; and how many lines it has. */
static size_t last_lines(const text *of, size_t most, size_t *count) {
    size_t at = of->length, from = of->length;
    for (*count = 0; at; at--) {
        if (at > 1 && of->bytes[at - 2] != '\n')
            continue;
        from = *count < most ? at - 1 : from;
        ++*count;
    }
    return from;
}

/* Replaces the history's file by its last lines. */
static void cut_history(const text *all, size_t from) {
    const text last = {all->bytes + from, all->length - from, 0, 0};
    (void)replace_file(history_file, &last);
}

/* Reads the history's file, and cuts it if it has become long. */
static void load_history(void) {
    text all = {NULL, 0, 0, 0};
    size_t count;
    if (!history_file || !read_file(&all, history_file)) {
        free(all.bytes);
        return;
    }
    size_t at = last_lines(&all, KEPT_LINES, &count);
    if (count > 2 * KEPT_LINES)
        cut_history(&all, at);
    while (at < all.length) {
        char *const line = (char *)all.bytes + at;
        const char *const end = (const char *)memchr(line, '\n', all.length - at);
        const size_t length = end ? (size_t)(end - line) : all.length - at;
        at += length + 1;
        remember(line, take_kept(line, length));
    }
    free(all.bytes);
}

/* The name of the history's file; a null pointer if there is none. */
static const char *find_history(void) {
    static text name;
    const char *const given = getenv("TRAC_HISTORY"), *const home = getenv("HOME");
    if (given)
        return *given ? given : NULL;
    if (!home || !*home)
        return NULL;
    add_text(&name, home);
    add_text(&name, "/.trac_history");
    add_bytes(&name, "", 1);
    return name.is_short ? NULL : (const char *)name.bytes;
}

/* ---- The editor. */

static wchar_t *prompt_of(EditLine *of) {
    static wchar_t none[] = L"";
    (void)of;
    return prompt_shown ? prompt_shown : none;
}

/* Binds the keys that this program adds to those of the editor. */
static void bind_own_keys(void) {
    (void)el_wset(editor, EL_BIND, L"\t", L"trac-complete", NULL);
    (void)el_wset(editor, EL_BIND, L"\033[200~", L"trac-paste", NULL);
    (void)el_wset(editor, EL_BIND, L"\033[3~", L"ed-delete-next-char", NULL);
    (void)el_wset(editor, EL_BIND, L"^R", L"em-inc-search-prev", NULL);
}

/* Binds the keys: first those of Emacs, then those of the user's .editrc. If that file chooses the keys of vi, all
 * other bindings are lost, so this program's keys are bound again. */
static void bind_keys(void) {
    const wchar_t *chosen = NULL;
    (void)el_wset(editor, EL_EDITOR, L"emacs");
    (void)el_wset(editor, EL_ADDFN, L"trac-complete", L"Complete a name", complete);
    (void)el_wset(editor, EL_ADDFN, L"trac-paste", L"Insert what is pasted", paste);
    bind_own_keys();
    (void)el_source(editor, NULL);
    if (el_wget(editor, EL_EDITOR, &chosen) == 0 && chosen && !wcscmp(chosen, L"vi"))
        bind_own_keys();
}

/* Begins to edit, if the terminal can. */
static void begin_editing(const trac_machine *machine) {
    const char *const kind = getenv("TERM");
    HistEventW event;
    if (!kind || !*kind || !strcmp(kind, "dumb") || !isatty(STDERR_FILENO))
        return;
    completed = machine;
    settle_window();
    editor = el_init("trac_terminal", stdin, stderr, stderr);
    history_of_lines = history_winit();
    if (!editor || !history_of_lines)
        return;
    (void)history_w(history_of_lines, &event, H_SETSIZE, KEPT_LINES);
    (void)history_w(history_of_lines, &event, H_SETUNIQUE, 1);
    (void)el_wset(editor, EL_HIST, history_w, history_of_lines);
    (void)el_wset(editor, EL_PROMPT, prompt_of);
    (void)el_wset(editor, EL_GETCFN, read_character);
    bind_keys();
    history_file = find_history();
    load_history();
    handle(SIGCONT, ignore);
    handle(SIGWINCH, ignore);
}

/* Reduces a prompt to the part that is in the last row of the screen. Gives 0 if that part is unknown, because the
 * prompt has control characters. */
static int keep_last_row(wchar_t *prompt) {
    int columns = 80, column = 0;
    const wchar_t *row = prompt, *at = prompt;
    (void)el_wget(editor, EL_GETTC, "co", &columns);
    for (; *at && wcwidth(*at) >= 0; at++) {
        const int width = wcwidth(*at), is_full = column + width > columns;
        row = is_full ? at : row;
        column = is_full ? width : column + width;
    }
    const int is_told = !*at;
    wmemmove(prompt, row, wcslen(row) + 1);
    return is_told;
}

/* Prepares a prompt that is on the screen already: its last row is shown again in the same place. If that isn't
 * possible, the line is typed below it. */
static void stand_behind(const char *prompt) {
    const int is_told = prompt_shown && keep_last_row(prompt_shown);
    if (!is_told && prompt_shown)
        *prompt_shown = 0;
    (void)write_all(STDERR_FILENO, is_told || (prompt && !*prompt) ? "\r" : "\n", 1);
}

/* Reads a line with the editor. */
static reading edit_line(text *to, const char *prompt, int is_shown, int *has_ended) {
    static const char on[] = "\033[?2004h", off[] = "\033[?2004l";
    text line = {NULL, 0, 0, 0};
    int count = 0;
    prompt_shown = prompt ? wide_of(prompt, strlen(prompt)) : NULL;
    (void)el_wset(editor, EL_PREP_TERM, 1);
    settle_window();
    el_resize(editor);
    if (is_shown)
        stand_behind(prompt);
    (void)write_all(STDERR_FILENO, on, sizeof on - 1);
    const wchar_t *const typed = el_wgets(editor, &count);
    (void)write_all(STDERR_FILENO, off, sizeof off - 1);
    free(prompt_shown);
    prompt_shown = NULL;
    if (is_interrupted) {
        (void)write_all(STDERR_FILENO, "^C\n", 3);
        return READ_INTERRUPTED;
    }
    if (!typed || count <= 0) {
        (void)write_all(STDERR_FILENO, "\n", 1);
        *has_ended = 1;
        return count < 0 ? READ_FAILED : READ;
    }
    add_wide(&line, typed, (size_t)count);
    keep_line(&line);
    add_bytes(to, line.bytes, line.length);
    const int is_short = line.is_short || to->is_short;
    free(line.bytes);
    return is_short ? READ_SHORT : READ;
}

#endif

void begin_typing(const trac_machine *machine) {
    handle(SIGINT, interrupt);
#ifdef WITH_LIBEDIT
    begin_editing(machine);
#else
    (void)machine;
#endif
}

reading type_line(text *to, const char *prompt, int is_shown, int *has_ended) {
#ifdef WITH_LIBEDIT
    if (editor && history_of_lines)
        return edit_line(to, prompt, is_shown, has_ended);
#endif
    return type_plainly(to, prompt, is_shown, has_ended);
}
