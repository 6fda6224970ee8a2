// mjcf2mj: turns a MuJoCo model (MJCF, URDF or MJB) into a model of mj.
// Status: 0 written; 1 MuJoCo refuses the file, or it can't be read, or the text not written; 2 the words are wrong;
// 3 something would be lost, and --drop isn't given; 4 a limit of mj is passed.
#include <stdarg.h>
#include <stdio.h>
#include <stdlib.h>
#include <string.h>

#include "plan.h"

static const char usage[] =
    "usage: mjcf2mj [--drop] [--near] [--explicit] [--key NAME|N] [--quiet] MODEL.xml|urdf|mjb > MODEL.toml\n"
    "  --drop      write the model without what mj has nothing for; each such thing is told\n"
    "  --near      boxes as balls in their corners, cylinders, ellipsoids and meshes as capsules or balls\n"
    "  --explicit  armature as it is; else MuJoCo's implicit damping is kept by armature + timestep x damping\n"
    "  --key       start at this keyframe, by its name or its number from 1\n"
    "  --quiet     tell only what is lost or over a limit\n";

void find(Plan* plan, Kind kind, const char* object, int number, const char* name, const char* form, ...) {
  static const char* const kinds[KINDS] = {"lost", "over", "other", "note"};
  plan->found[kind]++;
  if (plan->words->quiet && kind >= OTHER) return;
  fprintf(stderr, "%s: %s", kinds[kind], object);
  if (number >= 0) fprintf(stderr, "[%d]", number);
  if (name && name[0]) fprintf(stderr, " (%s)", name);
  fputs(": ", stderr);
  va_list words;
  va_start(words, form);
  vfprintf(stderr, form, words);
  va_end(words);
  fputc('\n', stderr);
}

void within(Plan* plan, double value, double low, double high, const char* object, int number, const char* what) {
  if (!(value >= low && value <= high))
    find(plan, OVER, object, number, "", "%s is %.6g, mj takes %.6g to %.6g", what, value, low, high);
}

static bool read_words(int count, char** words, Words* out) {
  for (int i = 1; i < count; i++) {
    if (!strcmp(words[i], "--drop"))
      out->drop = true;
    else if (!strcmp(words[i], "--near"))
      out->near = true;
    else if (!strcmp(words[i], "--explicit"))
      out->explicit_damping = true;
    else if (!strcmp(words[i], "--quiet"))
      out->quiet = true;
    else if (!strcmp(words[i], "--key") && i + 1 < count)
      out->key = words[++i];
    else if (words[i][0] != '-' && !out->file)
      out->file = words[i];
    else
      return false;
  }
  return out->file != NULL;
}

static void on_error(const char* text) {
  fprintf(stderr, "mjcf2mj: MuJoCo ends: %s\n", text);
  exit(1);
}

static void on_warning(const char* text) { fprintf(stderr, "note: MuJoCo warns: %s\n", text); }

static void release(Plan* plan, mjModel* model) {
  free(plan->joint);
  free(plan->tendon);
  free(plan->motors);
  free(plan->touch);
  free(plan->meets);
  free(plan->felt);
  free(plan->contype);
  free(plan->conaffinity);
  free(plan->text.bytes);
  mj_deleteModel(model);
}

// Writes the text where the model stands; the status.
static int hand_out(const Plan* plan) {
  if (plan->found[OVER]) {
    fprintf(stderr, "mjcf2mj: nothing written: %d over a limit of mj\n", plan->found[OVER]);
    return 4;
  }
  if (plan->found[LOST] && !plan->words->drop) {
    fprintf(stderr, "mjcf2mj: nothing written: %d lost; --drop writes the model without\n", plan->found[LOST]);
    return 3;
  }
  bool whole = fwrite(plan->text.bytes, 1, plan->text.size, stdout) == plan->text.size;
  if (fflush(stdout) || !whole) {
    fputs("mjcf2mj: the text can't be written\n", stderr);
    return 1;
  }
  return 0;
}

int main(int count, char** list) {
  Words words = {0};
  if (!read_words(count, list, &words)) {
    fputs(usage, stderr);
    return 2;
  }
  mju_user_error = on_error;
  mju_user_warning = on_warning;
  Plan plan = {.words = &words};
  mjModel* model = load(&plan);
  if (!model) return 1;
  plan.model = model;
  drive(&plan);
  touch(&plan);
  write_model(&plan);
  int status = hand_out(&plan);
  release(&plan, model);
  return status;
}
