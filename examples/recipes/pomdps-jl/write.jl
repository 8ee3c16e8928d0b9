# Writes a model of POMDPs.jl, and the vectors of a policy for it, as polcert reads them.
using POMDPs, POMDPTools

# The probability of each element, one to a line; zeros are left out.
function write_cells(out, head, distribution, elements)
    for (i, element) in enumerate(elements)
        p = Float64(pdf(distribution, element))
        p > 0 && println(out, head, " : ", i - 1, " ", p)
    end
end

# The model in Cassandra's format, with all digits of its numbers. Observations depend on the action and the end state.
function write_model(out, m)
    S, A, Z = ordered_states(m), ordered_actions(m), ordered_observations(m)
    println(out, "discount: $(discount(m)) values: reward")
    println(out, "states: $(length(S)) actions: $(length(A)) observations: $(length(Z))")
    println(out, "start: ", join((Float64(pdf(initialstate(m), s)) for s in S), " "))
    for (i, a) in enumerate(A), (j, s) in enumerate(S)
        write_cells(out, "O: $(i-1) : $(j-1)", observation(m, a, s), Z)
        isterminal(m, s) && (println(out, "T: $(i-1) : $(j-1) : $(j-1) 1"); continue)
        after = transition(m, s, a)
        write_cells(out, "T: $(i-1) : $(j-1)", after, S)
        for (k, e) in enumerate(S), (l, z) in enumerate(Z)
            pdf(after, e) > 0 && println(out, "R: $(i-1) : $(j-1) : $(k-1) : $(l-1) ", Float64(reward(m, s, a, e, z)))
        end
    end
end

# The vectors of an AlphaVectorPolicy, each after its action, which is counted from 0.
function write_vectors(out, m, policy)
    for (vector, action) in zip(policy.alphas, policy.action_map)
        println(out, actionindex(m, action) - 1, "\n", join(vector, " "))
    end
end
