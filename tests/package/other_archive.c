/* Stands for the archive of another version: it refuses everything, by reason 99. */
#define GEDROVIT_API
#include <gedrovit.h>

uint32_t gedrovit_version(void)
{
    return GEDROVIT_VERSION_NUMBER;
}

uint32_t GEDROVIT_VERSIONED(gedrovit_version)(void)
{
    return GEDROVIT_VERSION_NUMBER;
}

gedrovit_sizes gedrovit_sizes_for(uint32_t rounds, size_t vertices_length, size_t faces_length, const uint8_t *sides, size_t sides_length,
                                  size_t marks_length)
{
    const gedrovit_sizes none = {99, 0, 0, 0, 0};
    (void)rounds, (void)vertices_length, (void)faces_length, (void)sides, (void)sides_length, (void)marks_length;
    return none;
}

gedrovit_finding gedrovit_check(uint32_t rounds, const int32_t *vertices, size_t vertices_length, const uint32_t *faces,
                                size_t faces_length, const uint8_t *sides, size_t sides_length, const uint8_t *marks,
                                size_t marks_length, uint32_t tension, size_t out_vertices_length, size_t out_faces_length,
                                size_t out_marks_length, bool with_letters, size_t letters_length, uint32_t *work, size_t work_length)
{
    const gedrovit_finding refused = {99, 0};
    (void)rounds, (void)vertices, (void)vertices_length, (void)faces, (void)faces_length, (void)sides, (void)sides_length;
    (void)marks, (void)marks_length, (void)tension;
    (void)out_vertices_length, (void)out_faces_length, (void)out_marks_length, (void)with_letters, (void)letters_length;
    (void)work, (void)work_length;
    return refused;
}
