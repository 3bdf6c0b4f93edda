// JSON as tests/conformance.json has it: texts without escapes, whole numbers, lists and objects.
#ifndef JSON_HPP
#define JSON_HPP

#include <cstddef>
#include <cstdio>
#include <cstdlib>
#include <string>
#include <utility>
#include <vector>

struct Json {
    enum class Kind { text, whole, list, object } kind = Kind::list;
    std::string text;
    std::size_t whole = 0;
    std::vector<Json> list;
    std::vector<std::pair<std::string, Json>> fields;

    static Json of(std::string words)
    {
        Json json;
        json.kind = Kind::text;
        json.text = std::move(words);
        return json;
    }

    static Json of(std::size_t number)
    {
        Json json;
        json.kind = Kind::whole;
        json.whole = number;
        return json;
    }

    static Json of(std::vector<Json> values)
    {
        Json json;
        json.list = std::move(values);
        return json;
    }

    static Json of(std::vector<std::pair<std::string, Json>> named)
    {
        Json json;
        json.kind = Kind::object;
        json.fields = std::move(named);
        return json;
    }

    const Json *find(const std::string &name) const
    {
        for (const auto &field : fields)
            if (field.first == name)
                return &field.second;
        return nullptr;
    }

    const Json &at(const std::string &name) const
    {
        const Json *found = find(name);
        if (!found) {
            std::fprintf(stderr, "error: a case without %s\n", name.c_str());
            std::exit(1);
        }
        return *found;
    }

    /* The value on one line, an object's fields by their names. */
    std::string line() const
    {
        std::string line;
        const auto joined = [&line](const std::string &more) { line += (line.empty() ? "" : ", ") + more; };
        switch (kind) {
        case Kind::text: return '"' + text + '"';
        case Kind::whole: return std::to_string(whole);
        case Kind::list:
            for (const Json &value : list)
                joined(value.line());
            return '[' + line + ']';
        case Kind::object:
            for (const auto &field : fields)
                joined(field.first + ": " + field.second.line());
        }
        return '{' + line + '}';
    }

    bool operator==(const Json &other) const
    {
        if (kind != other.kind || text != other.text || whole != other.whole || list != other.list)
            return false;
        if (fields.size() != other.fields.size())
            return false;
        for (const auto &field : fields) {
            const Json *found = other.find(field.first);
            if (!found || !(*found == field.second))
                return false;
        }
        return true;
    }

    bool operator!=(const Json &other) const { return !(*this == other); }
};

class JsonReader {
public:
    explicit JsonReader(const std::string &text) : text_(text) {}

    Json value()
    {
        switch (next()) {
        case '"': return Json::of(words());
        case '[': return list();
        case '{': return object();
        default: return number();
        }
    }

private:
    /* The next letter that is no blank. */
    char next()
    {
        while (place_ < text_.size() && (text_[place_] == ' ' || text_[place_] == '\n'))
            place_++;
        if (place_ == text_.size())
            fail();
        return text_[place_];
    }

    [[noreturn]] void fail() const
    {
        std::fprintf(stderr, "error: byte %zu of the file is not read\n", place_);
        std::exit(1);
    }

    /* Whether the next letter is this one, which is taken then. */
    bool took(char letter)
    {
        const bool is = next() == letter;
        place_ += is;
        return is;
    }

    void take(char letter)
    {
        if (!took(letter))
            fail();
    }

    std::string words()
    {
        take('"');
        const std::size_t end = text_.find('"', place_);
        const std::string found = text_.substr(place_, end - place_);
        place_ = end + 1;
        return found;
    }

    Json number()
    {
        const std::size_t start = place_;
        while (place_ < text_.size() && text_[place_] >= '0' && text_[place_] <= '9')
            place_++;
        if (place_ == start)
            fail();
        return Json::of(static_cast<std::size_t>(std::stoull(text_.substr(start, place_ - start))));
    }

    Json list()
    {
        std::vector<Json> values;
        take('[');
        while (!took(']')) {
            values.push_back(value());
            if (next() != ']')
                take(',');
        }
        return Json::of(std::move(values));
    }

    Json object()
    {
        std::vector<std::pair<std::string, Json>> fields;
        take('{');
        while (!took('}')) {
            std::string name = words();
            take(':');
            fields.emplace_back(std::move(name), value());
            if (next() != '}')
                take(',');
        }
        return Json::of(std::move(fields));
    }

    const std::string &text_;
    std::size_t place_ = 0;
};

#endif
