// What C++ does with the same bytes: the Protocol Buffers parse, and onnx::checker on what was parsed.
// A shared object, so that the benchmark runs without it where Debian's libonnx-dev is not installed.
#include <onnx/checker.h>
#include <onnx/onnx_pb.h>

#include <cstddef>
#include <cstdio>
#include <exception>

extern "C" {

// The parsed model, or null where the parse fails. To be freed with onnx_side_free. No workload is longer than an int says:
// that is the most that Protocol Buffers parses, and the gate accepts.
void *onnx_side_parse(const unsigned char *bytes, size_t length)
{
    auto *model = new onnx::ModelProto;
    if (model->ParseFromArray(bytes, static_cast<int>(length)))
        return model;
    delete model;
    return nullptr;
}

void onnx_side_free(void *model)
{
    delete static_cast<onnx::ModelProto *>(model);
}

// 1 where onnx::checker lets the model pass. Else 0, and what it says in `told`, ended by a 0.
int onnx_side_check(const void *model, char *told, size_t capacity)
{
    try {
        onnx::checker::check_model(*static_cast<const onnx::ModelProto *>(model));
        return 1;
    } catch (const std::exception &error) {
        std::snprintf(told, capacity, "%s", error.what());
        return 0;
    }
}
}
