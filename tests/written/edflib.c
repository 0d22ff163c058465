/* Six seconds of two channels with annotations, written by EDFlib: cc edflib.c -o edflib -ledf

   usage: edflib KIND > FILE (KIND is the name of the file: one-each, between-seconds, as-they-come, two-signals) */

#include <edflib.h>
#include <stdio.h>
#include <string.h>

struct annotation {
    long long onset;    /* in 0.1 ms */
    long long duration; /* in 0.1 ms, -1 for none */
    const char *text;
};

static const struct annotation in_order[] = {{5000, -1, "Lights off"}, {12500, 10000, "Apnea"}, {31234, 5, "Arousal"}};
static const struct annotation as_they_come[] = {{40000, -1, "Lights on"}, {5000, -1, "Lights off"}};

static void describe(int file) {
    const char *labels[] = {"EEG Fpz-Cz", "Resp oro-nasal"};
    for (int signal = 0; signal < 2; signal++) {
        edf_set_samplefrequency(file, signal, 8 >> signal);
        edf_set_physical_minimum(file, signal, -3276.8);
        edf_set_physical_maximum(file, signal, 3276.7);
        edf_set_digital_minimum(file, signal, -32768);
        edf_set_digital_maximum(file, signal, 32767);
        edf_set_label(file, signal, labels[signal]);
        edf_set_physical_dimension(file, signal, "uV");
    }
    edf_set_startdatetime(file, 2023, 3, 1, 22, 15, 0);
}

static void write_samples(int file) {
    for (int second = 0; second < 6; second++) {
        for (int signal = 0; signal < 2; signal++) {
            int samples[8];
            for (int place = 0; place < 8 >> signal; place++) {
                samples[place] = 100 * second + 10 * place + signal;
            }
            edfwrite_digital_samples(file, samples);
        }
    }
}

static void write_annotations(int file, const struct annotation *notes, int count) {
    for (int number = 0; number < count; number++) {
        edfwrite_annotation_utf8(file, notes[number].onset, notes[number].duration, notes[number].text);
    }
}

int main(int count, char **words) {
    if (count != 2) {
        return 2;
    }
    int file = edfopen_file_writeonly("/dev/stdout", EDFLIB_FILETYPE_EDFPLUS, 2);
    if (file < 0) {
        return 1;
    }
    describe(file);
    int two = !strcmp(words[1], "two-signals");
    if (two) {
        edf_set_number_of_annotation_signals(file, 2);
    }
    if (!strcmp(words[1], "between-seconds")) {
        edf_set_subsecond_starttime(file, 2500000);
    }
    write_samples(file);
    if (!strcmp(words[1], "as-they-come")) {
        write_annotations(file, as_they_come, 2);
    } else {
        write_annotations(file, in_order, 3);
    }
    for (int number = 0; two && number < 6; number++) {
        edfwrite_annotation_utf8(file, 40000 + 1000 * number, 0, "Beat");
    }
    return edfclose_file(file) < 0;
}
