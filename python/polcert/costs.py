"""The sign of a solver's numbers: they are worth, of which more is better, or costs."""
from typing import Optional

from polcert.files import Graph, Model
from polcert.policies import GraphOrVectors, rewards_of
from polcert.tokens import Source

# A number this near to 0 may be a 0 that was rounded.
ROUNDING = 1e-6


def sign_advice(source: Source, found: GraphOrVectors, model: Model, are_costs: bool) -> Optional[str]:
    """What to say of vectors that are above 0 while no reward is, so that no policy is worth so much: costs that were not said to be costs,
    or the reverse. None if the sign may be right."""
    if isinstance(found, Graph) or any(reward > 0 for reward in rewards_of(model)):
        return None
    if min(min(vector.values) for vector in found) < -ROUNDING or max(max(vector.values) for vector in found) <= ROUNDING:
        return None
    if are_costs:
        return f"the numbers of {source.name} are below 0, while no cost of the model is: if they are no costs, leave out --costs"
    return f"the numbers of {source.name} are above 0, while no reward of the model is: if they are costs, say --costs"
