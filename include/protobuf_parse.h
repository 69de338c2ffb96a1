/*
 * protobuf_parse for C: .proto files into the bytes of a FileDescriptorSet, or what is wrong with
 * them. docs/c.md says how to build and link the library.
 *
 * Each call stands for itself: the library keeps nothing between calls, owns no memory that it
 * hands over, and may be called by several threads at once. What it answers goes into rooms of the
 * caller. A room that is too small is no fault: the call answers PB_NO_ROOM, `sizes` says how much
 * is wanted, and nothing else is written; call again. A room of length 0 needs a pointer all the
 * same, which is not used.
 *
 * A call wants 1 MB of stack: messages nested 100 deep, as deep as a text may go, take half of it.
 */
#ifndef PROTOBUF_PARSE_H
#define PROTOBUF_PARSE_H

#include <stddef.h>
#include <stdint.h>

#ifdef __cplusplus
extern "C" {
#endif

/* What a call answers. */
enum {
  PB_DONE = 0,      /* what was asked for is there */
  PB_REFUSED = 1,   /* an error is told, and there is no set */
  PB_NO_ROOM = 2,   /* a room is too small: see `sizes` */
  PB_NO_MEMORY = 3  /* memory is short */
};

/* How bad a fault is. */
enum { PB_ERROR = 1, PB_WARNING = 2 };

/* Flags of protobuf_parse_compile. */
enum { PB_SOURCE_INFO = 1 /* the files of the set have comments and places */ };

/* Bytes of the caller. They need no zero at their end. */
typedef struct {
  const uint8_t *bytes;
  size_t len;
} pb_text;

/* A file in memory: its proto path, as imports name it, and its content. */
typedef struct {
  const uint8_t *path;
  size_t path_len;
  const uint8_t *content;
  size_t content_len;
} pb_file;

/* A text in the room for texts: UTF-8, without a zero at its end. */
typedef struct {
  size_t at;
  size_t len;
} pb_span;

/* A fault. Its texts stand in the room for texts. */
typedef struct {
  pb_span file;      /* the path by which people open the file */
  uint32_t line;     /* from 1; 0 where no place is known */
  uint32_t column;   /* in characters, from 1; 0 where no place is known */
  uint32_t severity; /* PB_ERROR or PB_WARNING */
  pb_span code;      /* by which docs/faults.md tells more: "E3" */
  pb_span message;   /* a sentence */
  pb_span help;      /* what to do; empty where that can't be told */
} pb_fault;

/* How much of each room is used, or with PB_NO_ROOM is wanted. */
typedef struct {
  size_t set;    /* bytes */
  size_t texts;  /* bytes */
  size_t faults; /* faults, or imports */
} pb_sizes;

/*
 * Compiles the inputs and all that they reach.
 *
 * `files` are all files that may be imported; Google's (google/protobuf/...), which the library
 * brings, may be left out. `inputs` are proto paths.
 *
 * PB_DONE: `set` begins with sizes->set bytes of a google.protobuf.FileDescriptorSet of all files,
 * imports first, as protoc --include_imports writes it, and the faults are warnings.
 * PB_REFUSED: the faults, in the order of files and places, tell at least one error.
 */
int32_t protobuf_parse_compile(
    const pb_file *files, size_t files_len,
    const pb_text *inputs, size_t inputs_len,
    uint32_t flags,
    uint8_t *set, size_t set_len,
    uint8_t *texts, size_t texts_len,
    pb_fault *faults, size_t faults_len,
    pb_sizes *sizes);

/*
 * What the text of a file imports, in the order of its statements: for callers that bring files
 * one by one, from a disk, a registry or over a network, before they compile.
 *
 * PB_DONE: `imports` begins with sizes->faults proto paths. PB_REFUSED: the text has a fault, and
 * protobuf_parse_compile tells which.
 */
int32_t protobuf_parse_imports(
    const uint8_t *text, size_t text_len,
    uint8_t *texts, size_t texts_len,
    pb_span *imports, size_t imports_len,
    pb_sizes *sizes);

/* The version of the library: 1000 is 0.1.0. */
int32_t protobuf_parse_version(void);

#ifdef __cplusplus
}
#endif

#endif
