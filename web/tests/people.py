"""Whose interviews the tests play: what each person says to each question of food.txt, and the commands that say the same."""
from __future__ import annotations

from typing import Any

ADA: dict[str, Any] = {
    "On which day do you apply, or did you apply?": "2024-11-12",
    "Who lives with you, and buys and prepares food together with you?": ["Ada"],
    "When was Ada born?": "1959-03-05",
    "Does Ada receive public assistance?": False,
    "Is Ada enrolled at a college, a university or another school after high school, at least half-time?": False,
    "Does Ada go to school, at least half-time?": False,
    "What does Ada earn in a month, before taxes?": "0",
    "What does Ada take in from a business of their own in a month?": "0",
    "What does that business cost Ada in a month?": "0",
    "What does Ada receive in a month from pensions and Social Security?": "1,180",
    "What does Ada receive in a month as child support or alimony?": "0",
    "What does Ada pay in a month for medical needs?": "110.00",
    "Do you pay for the care of a child or of somebody else so that a member of the household can work or train?": False,
    "What does your household pay in a month as child support that the law demands?": "0",
    "Is your household homeless?": False,
    "What is your rent, or your mortgage payment, in a month?": "640",
    "What do you pay in a month for property tax and for insurance of the house?": "0",
    "Do you pay for heating or cooling, apart from the rent?": True,
    "What is your State's standard utility allowance?": "420",
    "How much money does Ada have in cash and in bank accounts?": "500",
    "What are Ada's other savings and possessions that count worth?": "0",
}
GOALS = [
    "the application is approved: true (settled)", "the benefit at the application: 204.00 (settled)", "the first month's benefit: 129.00 (settled)",
    "the last day for a decision: 2024-12-12 (settled)",
]  # fmt: skip
PERMIT: dict[str, Any] = {
    "Does the resident live in the street?": True,
    "Does the resident have a garage?": False,
    "Does the resident have a car?": True,
    "What is the length of the car?": "4.8",
}
PERMIT_REPLIES = "true\ntrue\nfalse\n4.8\n"
FAMILY: dict[str, Any] = {
    "Which are the children?": ["Anna", "Ben"],
    "What is Anna's date of birth?": "2010-05-01",
    "What is Ben's date of birth?": "2015-09-10",
    "What is Anna's last day in approved education?": "2028-06-30",
    "What is Ben's last day in approved education?": "2033-06-30",
    "What is the adjusted net income?": "62000",
}
FAMILY_REPLIES = '"Anna", "Ben"\n2010-05-01\n2015-09-10\n2028-06-30\n2033-06-30\n62000\n'


def renamed(person: dict[str, Any], name: str) -> dict[str, Any]:
    """The same replies of a person of another name."""
    swap = lambda said: [name if each == "Ada" else each for each in said] if isinstance(said, list) else said
    return {question.replace("Ada", name): swap(said) for question, said in person.items()}
