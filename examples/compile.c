/*
 * Compiles schemas by protobuf_parse: compile [-I DIR]... [-s] [-o SET] FILE...
 *
 * Files are looked for in the folders DIR, in order. With -s the set has source info. What is wrong
 * goes to standard error, a line each; the status is 1 where an error is told.
 */
#include "protobuf_parse.h"

#include <stdio.h>
#include <stdlib.h>
#include <string.h>

/* Files that were read, each once. */
typedef struct {
  pb_file *rows;
  size_t len;
} files;

/* The rooms of a call. */
typedef struct {
  uint8_t *set;
  uint8_t *texts;
  pb_fault *faults;
  pb_sizes sizes;
} rooms;

static void *room_for(void *old, size_t len) {
  void *room = realloc(old, len > 0 ? len : 1);
  if (room == NULL) {
    fputs("out of memory\n", stderr);
    exit(PB_NO_MEMORY);
  }
  return room;
}

/* The content of the file DIR/PATH, or NULL where there is none. */
static uint8_t *content_of(const char *dir, const uint8_t *path, size_t path_len, size_t *len) {
  char *place = room_for(NULL, strlen(dir) + path_len + 2);
  sprintf(place, "%s/%.*s", dir, (int)path_len, (const char *)path);
  FILE *file = fopen(place, "rb");
  free(place);
  if (file == NULL) {
    return NULL;
  }
  uint8_t *content = NULL;
  size_t got;
  *len = 0;
  do {
    content = room_for(content, *len + 65536);
    got = fread(content + *len, 1, 65536, file);
    *len += got;
  } while (got > 0);
  fclose(file);
  return content;
}

static int has(const files *all, const uint8_t *path, size_t len) {
  for (size_t i = 0; i < all->len; i++) {
    if (all->rows[i].path_len == len && memcmp(all->rows[i].path, path, len) == 0) {
      return 1;
    }
  }
  return 0;
}

/* Adds the file of this path, unless it is there or no folder has it. */
static void add(files *all, char **dirs, size_t dirs_len, const uint8_t *path, size_t path_len) {
  if (has(all, path, path_len)) {
    return;
  }
  uint8_t *content = NULL;
  size_t len = 0;
  for (size_t i = 0; content == NULL && i < dirs_len; i++) {
    content = content_of(dirs[i], path, path_len, &len);
  }
  if (content == NULL) {
    return; /* one of Google's, or the library tells that it is missing */
  }
  uint8_t *own = room_for(NULL, path_len);
  memcpy(own, path, path_len);
  all->rows = room_for(all->rows, (all->len + 1) * sizeof *all->rows);
  all->rows[all->len++] = (pb_file){own, path_len, content, len};
}

/* Adds what the file of this number imports. */
static void add_imports(files *all, char **dirs, size_t dirs_len, size_t number) {
  pb_sizes sizes = {0, 0, 0};
  uint8_t *texts = NULL;
  pb_span *imports = NULL;
  int32_t status;
  do {
    pb_sizes room = sizes;
    texts = room_for(texts, room.texts);
    imports = room_for(imports, room.faults * sizeof *imports);
    status = protobuf_parse_imports(all->rows[number].content, all->rows[number].content_len,
                                    texts, room.texts, imports, room.faults, &sizes);
  } while (status == PB_NO_ROOM);
  for (size_t i = 0; status == PB_DONE && i < sizes.faults; i++) {
    add(all, dirs, dirs_len, texts + imports[i].at, imports[i].len);
  }
  free(texts);
  free(imports);
}

/* Calls until there is room enough. */
static int32_t compile(const files *all, const pb_text *inputs, size_t inputs_len, uint32_t flags,
                       rooms *r) {
  int32_t status;
  do {
    pb_sizes room = r->sizes;
    r->set = room_for(r->set, room.set);
    r->texts = room_for(r->texts, room.texts);
    r->faults = room_for(r->faults, room.faults * sizeof *r->faults);
    status = protobuf_parse_compile(all->rows, all->len, inputs, inputs_len, flags, r->set,
                                    room.set, r->texts, room.texts, r->faults, room.faults,
                                    &r->sizes);
  } while (status == PB_NO_ROOM);
  return status;
}

static void tell_part(const char *before, const uint8_t *texts, pb_span span, const char *after) {
  fprintf(stderr, "%s%.*s%s", before, (int)span.len, (const char *)texts + span.at, after);
}

static void tell(const uint8_t *texts, const pb_fault *fault) {
  tell_part("", texts, fault->file, "");
  if (fault->line > 0) {
    fprintf(stderr, ":%u:%u", fault->line, fault->column);
  }
  tell_part(fault->severity == PB_ERROR ? ": error: " : ": warning: ", texts, fault->message, "");
  if (fault->help.len > 0) {
    tell_part("; ", texts, fault->help, "");
  }
  if (fault->code.len > 0) {
    tell_part(" [", texts, fault->code, "]");
  }
  fputc('\n', stderr);
}

static int32_t written(const char *output, const rooms *r) {
  FILE *file = fopen(output, "wb");
  if (file == NULL || fwrite(r->set, 1, r->sizes.set, file) != r->sizes.set || fclose(file) != 0) {
    perror(output);
    return PB_REFUSED;
  }
  return PB_DONE;
}

static void drop(files *all, rooms *r) {
  for (size_t i = 0; i < all->len; i++) {
    free((void *)all->rows[i].path);
    free((void *)all->rows[i].content);
  }
  free(all->rows);
  free(r->set);
  free(r->texts);
  free(r->faults);
}

int main(int argc, char **argv) {
  char **dirs = room_for(NULL, (size_t)argc * sizeof *dirs);
  pb_text *inputs = room_for(NULL, (size_t)argc * sizeof *inputs);
  size_t dirs_len = 0, inputs_len = 0;
  const char *output = NULL;
  uint32_t flags = 0;
  for (int i = 1; i < argc; i++) {
    if (strcmp(argv[i], "-I") == 0 && i + 1 < argc) {
      dirs[dirs_len++] = argv[++i];
    } else if (strcmp(argv[i], "-o") == 0 && i + 1 < argc) {
      output = argv[++i];
    } else if (strcmp(argv[i], "-s") == 0) {
      flags |= PB_SOURCE_INFO;
    } else {
      inputs[inputs_len++] = (pb_text){(const uint8_t *)argv[i], strlen(argv[i])};
    }
  }
  files all = {room_for(NULL, 0), 0};
  for (size_t i = 0; i < inputs_len; i++) {
    add(&all, dirs, dirs_len, inputs[i].bytes, inputs[i].len);
  }
  for (size_t i = 0; i < all.len; i++) {
    add_imports(&all, dirs, dirs_len, i);
  }
  rooms r = {NULL, NULL, NULL, {0, 0, 0}};
  int32_t status = compile(&all, inputs, inputs_len, flags, &r);
  for (size_t i = 0; status != PB_NO_MEMORY && i < r.sizes.faults; i++) {
    tell(r.texts, &r.faults[i]);
  }
  if (status == PB_DONE && output != NULL) {
    status = written(output, &r);
  }
  drop(&all, &r);
  free(dirs);
  free(inputs);
  return (int)status;
}
