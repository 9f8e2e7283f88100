// Boost's Dijkstra for Rust to call: on an adjacency_list, and on a compressed sparse row graph that has each edge both ways. A search
// goes over the whole graph, or stops by an exception from its visitor, as Boost's documentation advises, when it comes to the other end.
#include <boost/graph/adjacency_list.hpp>
#include <boost/graph/compressed_sparse_row_graph.hpp>
#include <boost/graph/dijkstra_shortest_paths.hpp>
#include <cstdint>
#include <utility>
#include <vector>

namespace {

using Number = std::uint32_t;
using Length = boost::property<boost::edge_weight_t, Number>;
using Lists = boost::adjacency_list<boost::vecS, boost::vecS, boost::undirectedS, boost::no_property, Length>;
using Rows = boost::compressed_sparse_row_graph<boost::directedS, boost::no_property, Length, boost::no_property, Number, Number>;

struct Reached {};

template <class Vertex> struct StopAt : boost::default_dijkstra_visitor {
    Vertex goal;
    explicit StopAt(Vertex v) : goal(v) {}
    template <class Graph> void examine_vertex(Vertex v, const Graph &) const {
        if (v == goal) throw Reached{};
    }
};

template <class Graph> struct Search {
    using Vertex = typename boost::graph_traits<Graph>::vertex_descriptor;
    Graph graph;
    std::vector<Number> distances;

    Search(Graph &&g, Number vertices) : graph(std::move(g)), distances(vertices) {}

    Number run(Vertex from, Vertex to, bool whole) {
        auto map = boost::make_iterator_property_map(distances.begin(), get(boost::vertex_index, graph));
        if (whole) {
            boost::dijkstra_shortest_paths(graph, from, boost::distance_map(map));
        } else {
            try {
                boost::dijkstra_shortest_paths(graph, from, boost::distance_map(map).visitor(StopAt<Vertex>(to)));
            } catch (Reached) {
            }
        }
        return distances[to];
    }
};

Lists lists(Number vertices, Number edges, const std::uint16_t *ends, const Number *lengths) {
    Lists graph(vertices);
    for (Number e = 0; e < edges; e++) boost::add_edge(ends[2 * e], ends[2 * e + 1], Length(lengths[e]), graph);
    return graph;
}

Rows rows(Number vertices, Number edges, const std::uint16_t *ends, const Number *lengths) {
    std::vector<std::pair<Number, Number>> arcs;
    std::vector<Length> both;
    arcs.reserve(2 * edges);
    both.reserve(2 * edges);
    for (Number e = 0; e < edges; e++) {
        arcs.emplace_back(ends[2 * e], ends[2 * e + 1]);
        arcs.emplace_back(ends[2 * e + 1], ends[2 * e]);
        both.insert(both.end(), 2, Length(lengths[e]));
    }
    return Rows(boost::edges_are_unsorted_multi_pass, arcs.begin(), arcs.end(), both.begin(), vertices);
}

} // namespace

extern "C" {

void *boost_lists(Number vertices, Number edges, const std::uint16_t *ends, const Number *lengths) {
    return new Search<Lists>(lists(vertices, edges, ends, lengths), vertices);
}

void *boost_rows(Number vertices, Number edges, const std::uint16_t *ends, const Number *lengths) {
    return new Search<Rows>(rows(vertices, edges, ends, lengths), vertices);
}

// 4,294,967,295 where there is no way.
Number boost_lists_distance(void *search, Number from, Number to, bool whole) { return static_cast<Search<Lists> *>(search)->run(from, to, whole); }
Number boost_rows_distance(void *search, Number from, Number to, bool whole) { return static_cast<Search<Rows> *>(search)->run(from, to, whole); }

void boost_lists_free(void *search) { delete static_cast<Search<Lists> *>(search); }
void boost_rows_free(void *search) { delete static_cast<Search<Rows> *>(search); }
}
